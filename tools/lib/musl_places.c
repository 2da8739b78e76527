/* Does calls with the C library's own allocator, and prints where each block lies, by the allocator's own headers.
   To be built with musl-gcc -static: musl 1.2.1 or later, for a 64-bit machine.

   Input, a call a line: "m SIZE", "f CALL", "r CALL SIZE". CALL is the number of the call, from 0, that made the block.
   r resizes a block in place: where it would move here, since its offset leaves fewer bytes, it is left as it is.
   Output, a line for each m and r: class, slots of the group, index, offset in units, pages of the group's own run, and
   1 where an r left its block.

   Memory for the input and the table comes straight from the system, so that the heap serves the calls alone. */
#define _GNU_SOURCE
#include <stdint.h>
#include <stdlib.h>
#include <string.h>
#include <sys/mman.h>
#include <unistd.h>

enum { UNIT = 16, HEAD = 16, PAGE = 4096, LONE = 63 };

static const unsigned units[48] = {
	1, 2, 3, 4, 5, 6, 7, 8, 9, 10, 12, 15, 18, 20, 25, 31, 36, 42, 50, 63, 72, 84, 102, 127, 146, 170, 204, 255,
	292, 340, 409, 511, 584, 682, 818, 1023, 1169, 1364, 1637, 2047, 2340, 2730, 3276, 4095, 4680, 5460, 6552, 8191,
};

/* A group's words, as they lie in memory: two links, the group's address, two masks, and the flags. */
enum { META_MEM = 16, META_FLAGS = 32 };

struct place { unsigned long class, slots, index, offset, pages, gap; };

static void stop(const char *words)
{
	write(2, words, strlen(words));
	_exit(1);
}

static void *from_system(size_t size)
{
	void *memory = mmap(0, size, PROT_READ | PROT_WRITE, MAP_PRIVATE | MAP_ANONYMOUS, -1, 0);
	if (memory == MAP_FAILED) stop("no memory from the system\n");
	return memory;
}

static uint64_t read_64(const unsigned char *at) { uint64_t value; memcpy(&value, at, 8); return value; }
static uint32_t read_32(const unsigned char *at) { uint32_t value; memcpy(&value, at, 4); return value; }
static uint16_t read_16(const unsigned char *at) { uint16_t value; memcpy(&value, at, 2); return value; }

static struct place place_of(const unsigned char *block)
{
	uint64_t offset = block[-4] ? read_32(block - 8) : read_16(block - 2);
	const unsigned char *group = block - UNIT * offset - HEAD;
	const unsigned char *meta = (const unsigned char *)(uintptr_t)read_64(group);
	if (read_64(meta + META_MEM) != (uintptr_t)group) stop("this C library's allocator isn't the one that is compared\n");
	uint64_t flags = read_64(meta + META_FLAGS);
	struct place place = { flags >> 6 & 63, (flags & 31) + 1, block[-3] & 31, 0, flags >> 12, 0 };
	uint64_t stride = place.slots == 1 && place.pages ? place.pages * PAGE - HEAD : UNIT * units[place.class % 48];
	place.offset = offset - stride * place.index / UNIT;
	place.gap = stride - 4 - UNIT * place.offset;
	return place;
}

static char output[1 << 16];
static size_t filled;

static void flush(void)
{
	for (size_t done = 0; done < filled; ) {
		ssize_t part = write(1, output + done, filled - done);
		if (part <= 0) _exit(1);
		done += part;
	}
	filled = 0;
}

static void print(unsigned long number, char behind)
{
	char digits[24];
	int length = 0;
	do digits[length++] = '0' + number % 10; while (number /= 10);
	while (length) output[filled++] = digits[--length];
	output[filled++] = behind;
}

static void tell(const unsigned char *block, int was_left)
{
	if (sizeof output - filled < 128) flush();
	struct place place = place_of(block);
	print(place.class, ' ');
	print(place.slots, ' ');
	print(place.index, ' ');
	print(place.offset, ' ');
	print(place.pages, ' ');
	print(was_left, '\n');
}

/* The whole of the standard input, with a 0 behind it. */
static char *read_all(void)
{
	size_t room = 1 << 20, length = 0;
	char *text = from_system(room);
	for (ssize_t part; (part = read(0, text + length, room - length - 1)) > 0; ) {
		length += part;
		if (room - length > 1) continue;
		text = mremap(text, room, 2 * room, MREMAP_MAYMOVE);
		if (text == MAP_FAILED) stop("no memory from the system\n");
		room *= 2;
	}
	return text;
}

static unsigned long number(char **at) { return strtoul(*at, at, 10); }

static void *given(void *block)
{
	if (!block) stop("the system gave no memory for a block\n");
	return block;
}

static void *resized(void *block, size_t size)
{
	int fits = size <= place_of(block).gap;
	if (fits && realloc(block, size) != block) stop("a resize in place moved its block\n");
	tell(block, !fits);
	return block;
}

static void *made(size_t size)
{
	void *block = given(malloc(size));
	tell(block, 0);
	return block;
}

int main(void)
{
	char *at = read_all();
	size_t calls = 0;
	for (char *line = at; (line = strchr(line, '\n')); line++) calls++;
	void **blocks = from_system((calls + 1) * sizeof *blocks);
	for (size_t call = 0; call < calls; call++, at++) {
		char kind = *at++;
		unsigned long first = number(&at);
		if (kind == 'm') blocks[call] = made(first);
		else if (kind == 'r') blocks[call] = resized(blocks[first], number(&at));
		else free(blocks[first]);
	}
	flush();
	return 0;
}
