/* Tests that come too late, as they are met in C programs. */

struct packet {
    unsigned length;
};

/* The pointer is tested behind its use. */
unsigned length_of(struct packet *packet) {
    unsigned length = packet->length;
    if (!packet) return 0;
    return length;
}

/* A sum is compared with what it was made from. */
int fits(char *buffer, unsigned length) {
    if (buffer + length < buffer) return 0;
    return 1;
}

extern int abs(int number);

/* The least int has no absolute value. */
int bucket_of(int hash) {
    int bucket = abs(hash);
    if (bucket < 0) return 0;
    return bucket;
}
