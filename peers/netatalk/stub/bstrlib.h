/* In the place of a library's header, whose types netatalk's own headers name. The programs here use none of them. */
#ifndef PEER_BSTRLIB_H
#define PEER_BSTRLIB_H

typedef struct tagbstring {
    int mlen;
    int slen;
    unsigned char *data;
} *bstring;
typedef const struct tagbstring *const_bstring;

struct bstrList {
    int qty;
    int mlen;
    bstring *entry;
};

#endif
