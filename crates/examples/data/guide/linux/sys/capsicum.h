/* What msgd.c wants of sys/capsicum.h, where the system has none: the calls do nothing. */
#ifndef SYS_CAPSICUM_H
#define SYS_CAPSICUM_H
typedef struct { int unused; } cap_rights_t;
#define cap_rights_init(rights, ...) (rights)
static inline int cap_rights_limit(int fd, const cap_rights_t *rights) { (void)fd; (void)rights; return 0; }
static inline int cap_enter(void) { return 0; }
#endif
