/* A function that the linker puts another one in the place of (-Wl,--wrap=NAME): both are declared as it is. */
#ifndef WRAPPED_H
#define WRAPPED_H
#define WRAPPED(name) __typeof__(name) __real_##name, __wrap_##name
#endif
