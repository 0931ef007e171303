/* Streams over files. */
#include <errno.h>
#include <fcntl.h>
#include <pthread.h>
#include <stdio.h>
#include <stdlib.h>
#include <string.h>
#include <unistd.h>

static void show(const char *path)
{
    char line[200];
    FILE *file = fopen(path, "r");
    if (!file) {
        printf("%s: none\n", path);
        return;
    }
    while (fgets(line, sizeof line, file))
        printf("%s: %s", path, line);
    printf("%s: end %d error %d\n", path, feof(file) != 0, ferror(file) != 0);
    fclose(file);
}

static void modes(void)
{
    FILE *file = fopen("one", "w");
    fprintf(file, "first %d\n", 1);
    fputs("second\n", file);
    putc('x', file);
    fputc('\n', file);
    printf("place %ld\n", ftell(file));
    printf("reading what may be written only %d, error %d\n", fgetc(file), ferror(file) != 0);
    fclose(file);
    show("one");
    file = fopen("one", "a");
    fprintf(file, "more\n");
    printf("place %ld\n", ftell(file));
    fclose(file);
    show("one");
    file = fopen("one", "r+");
    fputs("FIRST", file);
    fseek(file, 0, SEEK_CUR);
    printf("then %c", fgetc(file));
    printf("%c\n", fgetc(file));
    fclose(file);
    show("one");
    printf("exclusive %d\n", fopen("one", "wx") == NULL && errno == EEXIST);
    printf("none %d\n", fopen("none", "r") == NULL && errno == ENOENT);
    printf("mode %d\n", fopen("one", "q") == NULL && errno == EINVAL);
    file = fopen("one", "w+");
    show("one");
    fputs("12345", file);
    rewind(file);
    printf("read %d\n", fgetc(file));
    fclose(file);
    show("none");
}

static void places(void)
{
    char text[20];
    FILE *file = fopen("two", "w+");
    for (int i = 0; i < 3000; i++)
        fprintf(file, "%04d ", i);
    printf("place %ld\n", ftell(file));
    fseek(file, 500, SEEK_SET);
    fread(text, 1, 5, file);
    printf("%.5s at %ld\n", text, ftell(file));
    ungetc('!', file);
    printf("%ld\n", ftell(file));
    printf("%c", fgetc(file));
    printf("%c\n", fgetc(file));
    fseek(file, -5, SEEK_END);
    printf("%d\n", (int)fread(text, 1, 20, file));
    printf("%.5s end %d\n", text, feof(file) != 0);
    fseek(file, -15000, SEEK_CUR);
    printf("%d\n", feof(file) != 0);
    fscanf(file, "%19s", text);
    printf("%s\n", text);
    fpos_t place;
    fgetpos(file, &place);
    int number, other;
    printf("scanned %d", fscanf(file, "%d %d", &number, &other));
    printf(" %d %d\n", number, other);
    fsetpos(file, &place);
    printf("again %d", fscanf(file, "%d", &number));
    printf(" %d\n", number);
    fseek(file, 4090, SEEK_SET);
    fwrite("ACROSS THE BUFFER", 1, 17, file);
    fseek(file, 4085, SEEK_SET);
    fread(text, 1, 19, file);
    printf("%.19s\n", text);
    printf("negative %d\n", fseek(file, -1, SEEK_SET) < 0 && errno == EINVAL);
    fclose(file);
}

static void descriptors(void)
{
    int both = open("three", O_RDWR | O_CREAT | O_TRUNC, 0600);
    FILE *file = fdopen(both, "w");
    printf("descriptor %d\n", fileno(file) == both);
    fputs("kept", file);
    printf("size %d", (int)lseek(both, 0, SEEK_END));
    fflush(file);
    printf(" then %d\n", (int)lseek(both, 0, SEEK_END));
    setvbuf(file, NULL, _IONBF, 0);
    fputs("now", file);
    printf("size %d\n", (int)lseek(both, 0, SEEK_END));
    fclose(file);
    printf("closed %d\n", close(both) < 0 && errno == EBADF);
    printf("bad %d\n", fdopen(both, "r") == NULL && errno == EBADF);
    file = tmpfile();
    fprintf(file, "temporary %d", 7);
    rewind(file);
    int number = 0;
    fscanf(file, "temporary %d", &number);
    printf("%d\n", number);
    fclose(file);
    char path[] = "fileXXXXXX";
    both = mkstemp(path);
    printf("made %d\n", both >= 0 && strlen(path) == 10 && strcmp(path, "fileXXXXXX") != 0);
    close(both);
    printf("removed %d\n", remove(path));
    char bad[] = "nothing";
    printf("refused %d\n", mkstemp(bad) < 0 && errno == EINVAL);
}

static FILE *shared;

static void *writes(void *argument)
{
    for (int i = 0; i < 50; i++)
        fprintf(shared, "thread %s writes its line %d\n", (char *)argument, i);
    flockfile(shared);
    fprintf(shared, "begun by %s, ", (char *)argument);
    usleep(100);
    fprintf(shared, "ended by %s\n", (char *)argument);
    funlockfile(shared);
    return NULL;
}

static void threads(void)
{
    pthread_t all[3];
    char line[80], number[4], other[4];
    int whole = 0, pairs = 0;
    shared = fopen("four", "w+");
    for (int i = 0; i < 3; i++)
        pthread_create(&all[i], NULL, writes, i == 0 ? "one" : i == 1 ? "two" : "three");
    for (int i = 0; i < 3; i++)
        pthread_join(all[i], NULL);
    rewind(shared);
    while (fgets(line, sizeof line, shared)) {
        int value;
        whole += sscanf(line, "thread %3s writes its line %d", number, &value) == 2;
        pairs += sscanf(line, "begun by %3s, ended by %3s", number, other) == 2 && strcmp(number, other) == 0;
    }
    printf("whole lines %d, pairs %d\n", whole, pairs);
    fclose(shared);
}

static void again(void)
{
    fflush(stdout);
    int kept = dup(1);
    FILE *file = freopen("five", "w", stdout);
    printf("into the file %d\n", file == stdout);
    fflush(stdout);
    dup2(kept, 1);
    close(kept);
    clearerr(stdout);
    printf("back\n");
    show("five");
    freopen("five", "r", stdin);
    printf("stdin: %c", getchar());
    printf("%c\n", getchar());
    printf("missing %d\n", freopen("none/none", "r", stdin) == NULL && errno == ENOENT);
    FILE *left = fopen("six", "w");
    fputs("left open\n", left);
    file = fopen("five", "a");
    file = freopen("seven", "w", file);
    fputs("another file\n", file);
    fclose(file);
    show("seven");
}

int main(void)
{
    char top[] = "/tmp/streamsXXXXXX";
    if (!mkdtemp(top) || chdir(top) < 0)
        return 1;
    modes();
    places();
    descriptors();
    threads();
    again();
    return 0;
}
