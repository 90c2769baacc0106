// What the program calls of the C library and of the kit's C code, for a module of WebAssembly with 64-bit addresses. Input, words and
// output are memory: a page puts the input and the words of the command line there before `run`, and reads the output after it. One
// instance of the module plays once, so nothing here is given back but what the program itself allocates.
typedef unsigned long Size;
typedef unsigned char Byte;
typedef struct {
    Size is_found;
    Size address;
} Block;
typedef struct {
    Byte *data;
    Size length, room;
} Text;

enum { PAGE = 65536, HEAD = 16, WORDS = 8, WORD_BYTES = 4096, NO_MEMORY = 12, NO_SEEK = 29, TRAIL = 3, FIFO = 0010600 };

extern Byte __heap_base;
static Byte *unused = &__heap_base; // the first byte that was never given away
static Byte *freed[64];             // a list of freed blocks for each power of two
static int last_error;
static Text input;
static Size read_up_to;
static Byte words[WORD_BYTES];
static Size word_starts[WORDS], word_lengths[WORDS], word_count;
static Text outputs[3]; // standard output, standard error, the trail

void *memcpy(void *to, const void *from, Size count) {
    for (Size at = 0; at < count; at++) ((Byte *)to)[at] = ((const Byte *)from)[at];
    return to;
}

void *memmove(void *to, const void *from, Size count) {
    if (to <= from) return memcpy(to, from, count);
    while (count-- > 0) ((Byte *)to)[count] = ((const Byte *)from)[count];
    return to;
}

void *memset(void *to, int value, Size count) {
    for (Size at = 0; at < count; at++) ((Byte *)to)[at] = value;
    return to;
}

int memcmp(const void *one, const void *two, Size count) {
    for (Size at = 0; at < count; at++) {
        int difference = ((const Byte *)one)[at] - ((const Byte *)two)[at];
        if (difference != 0) return difference;
    }
    return 0;
}

// Memory that was never given away, a multiple of 16 bytes; null where the host gives no more.
static void *fresh(Size size) {
    Size end = (Size)unused + ((size + 15) & -16ul), have = __builtin_wasm_memory_size(0) * PAGE;
    if (end > have && __builtin_wasm_memory_grow(0, (end - have) / PAGE + 64) == (Size)-1) return 0;
    Byte *made = unused;
    unused = (Byte *)end;
    return made;
}

// The power of two whose blocks have room for a size.
static int power(Size size) {
    int found = 4;
    while (found < 63 && 1ul << found < size) found++;
    return found;
}

// A block: before it stands its power of two.
static Block give(Size size) {
    int of = power(size);
    Byte *made = freed[of];
    if (made) {
        freed[of] = *(Byte **)made;
    } else {
        made = of < 40 ? fresh((1ul << of) + HEAD) : 0;
        if (!made) return (Block){0, 1};
        *(Size *)made = of;
        made += HEAD;
    }
    return (Block){1, (Size)made};
}

Block rattle_alloc(Size size, Size alignment) {
    return give(size ? size : alignment);
}

void rattle_dealloc(void *block) {
    if (!block) return;
    Size of = *(Size *)((Byte *)block - HEAD);
    *(Byte **)block = freed[of];
    freed[of] = block;
}

Block rattle_realloc(void *block, Size old_size, Size size, Size alignment) {
    Size room = 1ul << *(Size *)((Byte *)block - HEAD);
    if ((size ? size : alignment) <= room) return (Block){1, (Size)block};
    Block made = give(size);
    if (!made.is_found) return made;
    memcpy((void *)made.address, block, old_size < room ? old_size : room);
    rattle_dealloc(block);
    return made;
}

void rattle_set_errno(int error) {
    last_error = error;
}

int rattle_errno(void) {
    return last_error;
}

long rattle_arg(Size number, Byte *to, Size room) {
    if (number >= word_count) return -1;
    Size length = word_lengths[number];
    memcpy(to, words + word_starts[number], length < room ? length : room);
    return length;
}

long rattle_env(const Byte *name, Byte *to, Size room) {
    return -1;
}

long rattle_env_at(Size number, Byte *to, Size room) {
    return -1;
}

long __sysv_signal(int number, long handler) {
    return 0;
}

// The only file that is opened is that of the trail.
int open(const char *path, int flags, ...) {
    return TRAIL;
}

int close(int descriptor) {
    return 0;
}

int isatty(int descriptor) {
    return 0;
}

long lseek(int descriptor, long offset, int from) {
    last_error = NO_SEEK;
    return -1;
}

// Each descriptor is a FIFO of its own.
int statx(int descriptor, const char *path, int flags, int wanted, Byte *to) {
    memset(to, 0, 256);
    *(unsigned *)to = 0x7ff;
    *(unsigned short *)(to + 28) = FIFO;
    *(Size *)(to + 32) = descriptor + 1;
    return 0;
}

int __xpg_strerror_r(int error, char *to, Size room) {
    if (room) *to = 0;
    return 0;
}

long read(int descriptor, Byte *to, Size room) {
    Size left = input.length - read_up_to, count = left < room ? left : room;
    memcpy(to, input.data + read_up_to, count);
    read_up_to += count;
    return count;
}

long write(int descriptor, const Byte *from, Size count) {
    Text *text = &outputs[descriptor - 1];
    if (text->length + count > text->room) {
        Size room = 2 * (text->length + count) + PAGE;
        Byte *data = fresh(room);
        if (!data) {
            last_error = NO_MEMORY;
            return -1;
        }
        memcpy(data, text->data, text->length);
        text->data = data;
        text->room = room;
    }
    memcpy(text->data + text->length, from, count);
    text->length += count;
    return count;
}

// Numbers of 128 bits, for which the compiler calls functions.
typedef unsigned __int128 Wide;
enum { HALF = 64 };

static Wide wide(Size high, Size low) {
    union {
        Size parts[2];
        Wide whole;
    } made = {{low, high}};
    return made.whole;
}

static Size low_of(Wide value) {
    return ((union { Wide whole; Size parts[2]; }){value}).parts[0];
}

static Size high_of(Wide value) {
    return ((union { Wide whole; Size parts[2]; }){value}).parts[1];
}

Wide __ashlti3(Wide value, int by) {
    Size high = high_of(value), low = low_of(value);
    if (by == 0) return value;
    return by < HALF ? wide(high << by | low >> (HALF - by), low << by) : wide(low << (by - HALF), 0);
}

Wide __lshrti3(Wide value, int by) {
    Size high = high_of(value), low = low_of(value);
    if (by == 0) return value;
    return by < HALF ? wide(high >> by, low >> by | high << (HALF - by)) : wide(0, high >> (by - HALF));
}

Wide __multi3(Wide one, Wide two) {
    const Size half = 0xffffffff;
    Size a = low_of(one), b = low_of(two);
    Size low = (a & half) * (b & half), left = (a >> 32) * (b & half), right = (a & half) * (b >> 32);
    Size middle = (low >> 32) + (left & half) + (right & half);
    Size high = (a >> 32) * (b >> 32) + (left >> 32) + (right >> 32) + (middle >> 32);
    return wide(high + high_of(one) * b + a * high_of(two), (low & half) | middle << 32);
}

// ---- what the page calls

// Room for the input, whose length is given.
__attribute__((export_name("input_room"))) Byte *input_room(Size length) {
    input.data = fresh(length + 1);
    input.length = length;
    return input.data;
}

// Room for the words of the command line, one after the other; each is named by `add_word`.
__attribute__((export_name("words_room"))) Byte *words_room(void) {
    return words;
}

__attribute__((export_name("add_word"))) void add_word(Size start, Size length) {
    if (word_count == WORDS) return;
    word_starts[word_count] = start;
    word_lengths[word_count++] = length;
}

int main(void);

__attribute__((export_name("run"))) int run(void) {
    return main();
}

__attribute__((export_name("output"))) Byte *output(int number) {
    return outputs[number].data;
}

__attribute__((export_name("output_length"))) Size output_length(int number) {
    return outputs[number].length;
}
