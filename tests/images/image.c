// A program whose image has text, data and zeros.
const char text[] = "hello, memory"; long more[40] = {1, 2, 3, [39] = -1}; int zeros[20]; void _start(void) {}
