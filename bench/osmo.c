/* libosmocore's convolutional decoder and encoder on the code of SCH/F: rate 1/4, K = 5, punctured to 2/3, 288 steps.
 * usage: osmo decode|encode COUNT    prints how many blocks were found wrong (decode) or a sum of sent bits (encode)
 * The blocks are random, with soft values of random size and one sign in 400 turned; the same ones go round. */
#include <osmocom/core/conv.h>
#include <stdint.h>
#include <stdio.h>
#include <stdlib.h>
#include <string.h>

enum { FREE = 284, STEPS = 288, SENT = 432, BLOCKS = 64 };

static uint8_t next_output[16][2], next_state[16][2];
static int puncture[4 * STEPS + 1];
static ubit_t data[BLOCKS][FREE];
static sbit_t soft[BLOCKS][SENT];

/* the generators, the bit j steps back at place j */
static const int taps[4][5] = {{1, 1, 0, 0, 1}, {1, 0, 1, 1, 1}, {1, 1, 1, 0, 1}, {1, 1, 0, 1, 1}};

static void make_tables(void)
{
	int kept = 0, dropped = 0;

	/* the newest bit of a state is its lowest, as libosmocore has it */
	for (int s = 0; s < 16; s++)
		for (int b = 0; b < 2; b++) {
			int out = 0;
			for (int i = 0; i < 4; i++) {
				int sum = b & taps[i][0];
				for (int j = 1; j < 5; j++)
					sum ^= (s >> (j - 1)) & taps[i][j];
				out = 2 * out + sum;
			}
			next_output[s][b] = out;
			next_state[s][b] = (2 * s + b) & 15;
		}
	for (int v = 0; v < 4 * STEPS; v++) {
		if (v % 8 == 0 || v % 8 == 1 || v % 8 == 4)
			kept++;
		else
			puncture[dropped++] = v;
	}
	puncture[dropped] = -1;
	if (kept != SENT)
		abort();
}

static uint32_t draw(void)
{
	static uint32_t x = 2463534242u;
	x ^= x << 13;
	x ^= x >> 17;
	x ^= x << 5;
	return x;
}

int main(int argc, char **argv)
{
	struct osmo_conv_code code = {
		.N = 4, .K = 5, .len = FREE, .term = CONV_TERM_FLUSH,
		.next_output = next_output, .next_state = next_state, .puncture = puncture,
	};
	ubit_t sent[SENT], found[FREE];
	long count, sum = 0;

	if (argc != 3)
		return 2;
	count = atol(argv[2]);
	make_tables();
	for (int n = 0; n < BLOCKS; n++) {
		for (int k = 0; k < FREE; k++)
			data[n][k] = draw() >> 31;
		osmo_conv_encode(&code, data[n], sent);
		for (int k = 0; k < SENT; k++) {
			int size = 1 + draw() % 127, turned = draw() % 400 == 0;
			soft[n][k] = (sent[k] ^ turned) ? -size : size;
		}
	}
	if (!strcmp(argv[1], "decode"))
		for (long n = 0; n < count; n++) {
			osmo_conv_decode(&code, soft[n % BLOCKS], found);
			sum += memcmp(found, data[n % BLOCKS], FREE) != 0;
		}
	else
		for (long n = 0; n < count; n++) {
			osmo_conv_encode(&code, data[n % BLOCKS], sent);
			sum += sent[n % SENT];
		}
	printf("%ld\n", sum);
	return 0;
}
