/* Streams of System V: there are none, and ioctl answers ENOTTY. */
#ifndef _STROPTS_H
#define _STROPTS_H

#include <sys/ioctl.h>

#endif
