/* main may change its arguments and their strings, and getopt moves a file before the options behind them. */
#include <ctype.h>
#include <err.h>
#include <stdio.h>
#include <unistd.h>

int main(int argc, char **argv)
{
    int option;
    while ((option = getopt(argc, argv, "ab:")) != -1)
        printf("option %c %s\n", option, option == 'b' ? optarg : "");
    for (int i = optind; i < argc; i++) {
        for (char *each = argv[i]; *each; each++)
            *each = (char)toupper((unsigned char)*each);
        printf("word %s\n", argv[i]);
    }
    argv[0] = argv[argc - 1];
    argv[argc - 1] = NULL;
    printf("%s, %d after %d\n", argv[0], argc, optind);
    return 0;
}
