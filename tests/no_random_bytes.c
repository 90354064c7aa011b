// Loaded before the C library, it is a system that gives no random bytes.
int getentropy(void *bytes, __SIZE_TYPE__ count) { return -1; }
