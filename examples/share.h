int share(unsigned char whole, unsigned char parts);
struct pair { int first; int second; };
