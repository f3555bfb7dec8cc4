/* Decodes and codes fax pages with spandsp, the library that Asterisk and FreeSWITCH fax with. A tool of the
 * tests alone.
 *
 *   spandsp decode CODING WIDTH PAGE..            the rasters of the pages to standard output, 1 for black
 *   spandsp receive CODING WIDTH KEPT FILE PAGE.. the pages into a TIFF file, kept in the coding KEPT
 *   spandsp send CODING LEAST FILE NUMBER         a page of a TIFF file, from 0, to standard output
 *
 * A coding is mh, mr or mmr. PAGE is a file of what comes over the line for a page, up to the return to control
 * or the end of the facsimile block, with the first bit in the lowest one of a byte. A row has at least LEAST
 * bits, with fill. The status is 1 where spandsp does not find the end of a page, or has a row that is bad.
 */
#include <stdio.h>
#include <stdlib.h>
#include <string.h>
#include <spandsp.h>

static void need(int right, const char *what)
{
    if (!right) {
        fprintf(stderr, "spandsp: %s\n", what);
        exit(1);
    }
}

static int coding_of(const char *name)
{
    if (strcmp(name, "mh") == 0)
        return T4_COMPRESSION_ITU_T4_1D;
    if (strcmp(name, "mr") == 0)
        return T4_COMPRESSION_ITU_T4_2D;
    need(strcmp(name, "mmr") == 0, "no such coding");
    return T4_COMPRESSION_ITU_T6;
}

static int print_row(void *none, const uint8_t row[], size_t bytes)
{
    (void)none;
    return fwrite(row, 1, bytes, stdout) == bytes ? 0 : -1;
}

/* Puts the bytes of a page, and then zeros, as a sender does that fills its last block: spandsp looks at 13 bits
 * at a time. What comes after the page's end is not put. */
static void put_page(t4_rx_state_t *to, const char *name)
{
    FILE *page = fopen(name, "rb");
    int byte, zeros = 2, end = 0;
    need(page != NULL, "no such page");
    need(t4_rx_start_page(to) == 0, "the page does not start");
    while (!end && (byte = fgetc(page)) != EOF)
        end = t4_rx_put_byte(to, (uint8_t)byte);
    while (!end && zeros-- > 0)
        end = t4_rx_put_byte(to, 0);
    need(end, "the page has no end");
    need(t4_rx_end_page(to) == 0, "the page does not end");
    fclose(page);
}

static void need_no_bad_rows(t4_rx_state_t *of)
{
    t4_stats_t statistics;
    t4_rx_get_transfer_statistics(of, &statistics);
    need(statistics.bad_rows == 0, "bad rows");
}

/* Receives pages into a file, or to standard output. */
static void receive(const char *coding, const char *width, const char *kept, const char *file, char **page, int print)
{
    t4_rx_state_t *to = t4_rx_init(NULL, file, coding_of(kept));
    need(to != NULL, "no file to receive into");
    if (print)
        t4_rx_set_row_write_handler(to, print_row, NULL);
    t4_rx_set_rx_encoding(to, coding_of(coding));
    t4_rx_set_image_width(to, atoi(width));
    t4_rx_set_x_resolution(to, T4_X_RESOLUTION_R8);
    t4_rx_set_y_resolution(to, T4_Y_RESOLUTION_FINE);
    for (; *page != NULL; page++) {
        put_page(to, *page);
        need_no_bad_rows(to);
    }
    need(t4_rx_free(to) == 0, "the file does not end");
}

static void send_page(const char *coding, const char *least, const char *file, const char *number)
{
    uint8_t bytes[4096];
    int got;
    t4_tx_state_t *from = t4_tx_init(NULL, file, atoi(number), atoi(number));
    need(from != NULL, "no file to send");
    t4_tx_set_tx_encoding(from, coding_of(coding));
    t4_tx_set_min_bits_per_row(from, atoi(least));
    need(t4_tx_start_page(from) == 0, "the page does not start");
    do {
        got = t4_tx_get_chunk(from, bytes, sizeof bytes);
        fwrite(bytes, 1, (size_t)got, stdout);
    } while (got == sizeof bytes);
    need(t4_tx_end_page(from) == 0, "the page does not end");
    t4_tx_free(from);
}

int main(int count, char **word)
{
    if (count > 5 && strcmp(word[1], "decode") == 0)
        /* spandsp wants a file, and takes it away where it has no page: never name a device. */
        receive(word[2], word[3], "mmr", word[4], word + 5, 1);
    else if (count > 6 && strcmp(word[1], "receive") == 0)
        receive(word[2], word[3], word[4], word[5], word + 6, 0);
    else if (count == 6 && strcmp(word[1], "send") == 0)
        send_page(word[2], word[3], word[4], word[5]);
    else
        need(0, "no such words");
    need(fflush(stdout) == 0, "no output");
    return 0;
}
