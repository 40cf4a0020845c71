/* The control socket's requests: one line each, in version 1, and what it is answered. */
#ifndef SHFL_CONTROL_H
#define SHFL_CONTROL_H
#include "inside.h"

#define SHFL_REQUEST_MOST 18000
#define SHFL_REPLY_MOST 98304 /* 64 classes with the largest numbers */

struct shfl_reply { size_t length; char text[SHFL_REPLY_MOST]; };

void shfl_reply_to(char *request, struct shfl_reply *reply); /* the request's blanks are overwritten */
#endif
