// Writes a scene with so many files to standard output. usage: files_scene FILES [meet]
// With meet their ids agree in the 12 low bits of the hash by which the program keeps files (SipHash-1-3 with the key 0, of the
// id's length and bytes): a table that trusted it would look through all of them for each.   build: gcc -O2 -o files_scene files_scene.c
#include <stdint.h>
#include <stdio.h>
#include <stdlib.h>
#include <string.h>

static uint64_t v[4];

static uint64_t turned(uint64_t word, int bits) { return word << bits | word >> (64 - bits); }

static void turn(void) {
    v[0] += v[1], v[2] += v[3];
    v[1] = turned(v[1], 13) ^ v[0], v[3] = turned(v[3], 16) ^ v[2], v[0] = turned(v[0], 32);
    v[2] += v[1], v[0] += v[3];
    v[1] = turned(v[1], 17) ^ v[2], v[3] = turned(v[3], 21) ^ v[0], v[2] = turned(v[2], 32);
}

static void take(uint64_t word) { v[3] ^= word, turn(), v[0] ^= word; }

// The hash of an id of 8 bytes.
static uint64_t hash(const char *id) {
    uint64_t word;
    memcpy(&word, id, 8);
    memcpy(v, (uint64_t[]){0x736f6d6570736575, 0x646f72616e646f6d, 0x6c7967656e657261, 0x7465646279746573}, sizeof v);
    take(8), take(word), take((uint64_t)16 << 56);
    v[2] ^= 0xff, turn(), turn(), turn();
    return v[0] ^ v[1] ^ v[2] ^ v[3];
}

int main(int argc, char **argv) {
    int left = argc > 1 ? atoi(argv[1]) : 0, meet = argc > 2;
    printf("{\"type\":\"excalidraw\",\"version\":2,\"source\":null,\"elements\":[],\"appState\":{},\"files\":{");
    for (uint32_t at = 0; left > 0; at++) {
        char id[9] = "";
        for (int i = 0; i < 8; i++) id[i] = "0123456789abcdef"[at >> 4 * i & 15];
        if (meet && hash(id) & 0xfff) continue;
        printf("\"%s\":{\"dataURL\":\"data:;base64,AAEC\"}%s", id, --left ? "," : "");
    }
    printf("}}\n");
}
