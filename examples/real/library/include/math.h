/* Declared for sources that name them, and not defined: the linker drops functions with floats that are never called. */
#ifndef LIBRARY_MATH_H
#define LIBRARY_MATH_H
double frexp(double number, int *exponent);
double ldexp(double number, int exponent);
double pow(double base, double exponent);
double fabs(double number);
double floor(double number);
double sqrt(double number);
#endif
