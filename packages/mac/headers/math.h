/* What c/ takes of math.h, for a compiler without Apple's headers. */
#ifndef GAZHDOR_MATH_H
#define GAZHDOR_MATH_H
#define NAN __builtin_nanf("")
#define HUGE_VAL __builtin_huge_val()
double ldexp(double value, int power);
double floor(double value);
double fabs(double value);
#endif
