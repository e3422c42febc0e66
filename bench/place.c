/* Moves all that is linked after it by PLACE bytes. How fast a small loop runs depends on its address, by up to a fifth; the
 * reference's loops as well as the library's. */
#ifndef PLACE
#define PLACE 16
#endif

#define TEXT_OF(number) #number
#define TEXT(macro) TEXT_OF(macro)

__asm__(".text\n\t.skip " TEXT(PLACE) "\n");
