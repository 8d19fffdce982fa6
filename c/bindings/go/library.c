//go:build !tcpcore_native

// The library's one C file, of release/.
#include "tcpcore.c"
