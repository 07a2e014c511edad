/* The letters of session 1 of vectors/sae.txt, in hexadecimal digits, for programs that open them. */
#ifndef LETTERS_H
#define LETTERS_H

static const char *const letters_key = "f61f802da7b7cb6b725295dc55591d972dc46171da41166d634b7d1f080930ff";
static const char *const letters_nonce = "612b3b6ecbb25b40bcfa9bb3e4b88fdd";
static const char *const letters_start_tag = "27a942632435f9bc4c5284e573bae201";

/* A letter, with the message that it gives, and count and index after it. */
typedef struct old_letter {
    const char *metadata, *cryptogram, *tag, *message;
    unsigned count, index;
} old_letter;

enum { LETTERS = 3 };
static const old_letter letters[LETTERS] = {
    {"c999b1614f3668fc5d0f02da05064c1644c955bb",
     "834d3cddbafc63c639cb5cf5ca4e98a3c6dc4c78aa57b5ae496d5bd5ad9ddc63d8bd23b65032c77f1f9a5f5a8fd4f6a4",
     "591d82a0a344af56bc59e01d5b181b43",
     "482a6d23daaaeb783dadbc2d36b948835779d5145fad3adca3155cef3e51b2d9058ec9f4da620718b0e6c79a77b8a346",
     8, 7},
    {"",
     "ce55d4cbd75530ebe0d336f76e64b523039f982eed8bdc91559a4bfa129b7b9110",
     "6cc17b62241407c6267e8dcb2d11bceb",
     "abd73b937faac8b78ca8af812bfaa0bfdac76b7c6dee8bb7adb33e3a23e1b265e6",
     6, 9},
    {"5f5ed51629",
     "",
     "2556d676cbe4f7c34c9549d38c2a60e0",
     "",
     3, 11}
};

#endif
