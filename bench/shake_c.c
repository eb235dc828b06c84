/* SHAKE256 in plain C, for a machine that stores the low byte first: lanes are loaded and stored whole, the compiler
   unrolls the loops over five, and a round goes from one array of lanes into another, so that none is copied. A block
   that comes in parts is put together before it is added. */

#define RATE 136
#define EACH(i) _Pragma("GCC unroll 5") for (int i = 0; i < 5; i++)

static const uint64_t constants[24] = {
    0x0000000000000001, 0x0000000000008082, 0x800000000000808a, 0x8000000080008000,
    0x000000000000808b, 0x0000000080000001, 0x8000000080008081, 0x8000000000008009,
    0x000000000000008a, 0x0000000000000088, 0x0000000080008009, 0x000000008000000a,
    0x000000008000808b, 0x800000000000008b, 0x8000000000008089, 0x8000000000008003,
    0x8000000000008002, 0x8000000000000080, 0x000000000000800a, 0x800000008000000a,
    0x8000000080008081, 0x8000000000008080, 0x0000000080000001, 0x8000000080008008,
};

/* by how many bits a lane is rotated; lane (x, y) stands at 5y + x */
static const int offsets[25] = {
    0, 1, 62, 28, 27, 36, 44, 6, 55, 20, 3, 10, 43, 25, 39, 41, 45, 15, 21, 8, 18, 2, 61, 56, 14,
};

static uint64_t rotated(uint64_t lane, int k) {
    return lane << k | lane >> (-k & 63);
}

/* one round from the lanes a into the lanes b */
static inline __attribute__((always_inline)) void keccak_round(const uint64_t *a, uint64_t *b, uint64_t constant) {
    uint64_t parity[5], added[5], row[5];
    EACH(x) parity[x] = a[x] ^ a[x + 5] ^ a[x + 10] ^ a[x + 15] ^ a[x + 20];
    EACH(x) added[x] = parity[(x + 4) % 5] ^ rotated(parity[(x + 1) % 5], 1);
    EACH(y) {
        EACH(x) {
            int from = 5 * x + (x + 3 * y) % 5;
            row[x] = rotated(a[from] ^ added[from % 5], offsets[from]);
        }
        EACH(x) b[5 * y + x] = row[x] ^ (~row[(x + 1) % 5] & row[(x + 2) % 5]);
    }
    b[0] ^= constant;
}

static void permute(uint64_t *a) {
    uint64_t b[25];
    for (int r = 0; r < 24; r += 2) {
        keccak_round(a, b, constants[r]);
        keccak_round(b, a, constants[r + 1]);
    }
}

/* the lanes, and so many bytes of a block that has begun */
typedef struct { uint64_t lanes[25]; uint8_t block[RATE]; size_t begun; } sponge;

static void add_block(sponge *s, const uint8_t *block) {
    for (size_t i = 0; i < RATE / 8; i++) {
        uint64_t lane;
        memcpy(&lane, block + 8 * i, 8);
        s->lanes[i] ^= lane;
    }
    permute(s->lanes);
}

/* a whole block is added from where it stands, and one that comes in parts when it is full */
static void absorb(sponge *s, const uint8_t *bytes, size_t n) {
    while (n > 0) {
        size_t part = RATE - s->begun < n ? RATE - s->begun : n;
        if (part == RATE) add_block(s, bytes);
        else {
            memcpy(s->block + s->begun, bytes, part);
            s->begun += part;
            if (s->begun == RATE) add_block(s, s->block), s->begun = 0;
        }
        bytes += part, n -= part;
    }
}

static void pad(sponge *s) {
    memset(s->block + s->begun, 0, RATE - s->begun);
    s->block[s->begun] ^= 31;
    s->block[RATE - 1] ^= 128;
    add_block(s, s->block);
}

static void squeeze(sponge *s, uint8_t *bytes, size_t n) {
    for (; n > RATE; n -= RATE, bytes += RATE) {
        memcpy(bytes, s->lanes, RATE);
        permute(s->lanes);
    }
    memcpy(bytes, s->lanes, n);
}

static void c_shake256(const uint8_t *message, size_t n, uint8_t *output, size_t output_n) {
    sponge s = {{0}, {0}, 0};
    absorb(&s, message, n);
    pad(&s);
    squeeze(&s, output, output_n);
}
