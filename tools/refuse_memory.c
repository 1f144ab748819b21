/* Loaded before the C library by tools/check_memory: refuses one request for memory of the program, and says at the
   end how many there were. Requests of libraries are not counted, and never refused.

   REFUSED_REQUEST  the number of the request that is refused, counted from 1; 0 refuses none
   REQUESTS_FILE    the file that gets the number of requests */
#define _GNU_SOURCE
#include <fcntl.h>
#include <link.h>
#include <stdint.h>
#include <stdio.h>
#include <stdlib.h>
#include <unistd.h>

extern void *__libc_malloc(size_t size);
extern void *__libc_realloc(void *block, size_t size);

static uintptr_t program_begin, program_end;
static unsigned long refused, requests;

/* The program is the first object that is told of. */
static int note_program(struct dl_phdr_info *object, size_t size, void *unused) {
    (void)size;
    (void)unused;
    for (int i = 0; i < object->dlpi_phnum; i++) {
        const ElfW(Phdr) *part = &object->dlpi_phdr[i];
        if (part->p_type == PT_LOAD && (part->p_flags & PF_X)) {
            program_begin = object->dlpi_addr + part->p_vaddr;
            program_end = program_begin + part->p_memsz;
        }
    }
    return 1;
}

__attribute__((constructor)) static void begin(void) {
    const char *number = getenv("REFUSED_REQUEST");
    refused = number ? strtoul(number, NULL, 10) : 0;
    dl_iterate_phdr(note_program, NULL);
}

__attribute__((destructor)) static void tell(void) {
    char text[24];
    const char *name = getenv("REQUESTS_FILE");
    int file = name ? open(name, O_WRONLY | O_CREAT | O_TRUNC, 0600) : -1;
    if (file >= 0 && write(file, text, (size_t)snprintf(text, sizeof text, "%lu\n", requests)) < 0)
        _exit(99);
}

static int is_refused(void *caller) {
    uintptr_t place = (uintptr_t)caller;
    return place >= program_begin && place < program_end && ++requests == refused;
}

void *malloc(size_t size) {
    return is_refused(__builtin_return_address(0)) ? NULL : __libc_malloc(size);
}

void *realloc(void *block, size_t size) {
    return is_refused(__builtin_return_address(0)) ? NULL : __libc_realloc(block, size);
}
