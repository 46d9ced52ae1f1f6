/* A packet's whole path, on node 9: reset, blocks, a list's head, a slot; the packet comes, its notice is read, an ack goes back.
 * examples/run builds and runs it. */
#include <stdio.h>

#include "valmthosh.h"

static uint32_t saved[VALMTHOSH_SAVED_WORDS], answer[VALMTHOSH_ANSWER_WORDS];
static uint32_t send_ram[VALMTHOSH_SEND_WORDS], receive_ram[VALMTHOSH_RECEIVE_WORDS];
static uint32_t notice_memory[VALMTHOSH_NOTICE_MEMORY_WORDS_MOST], notice[VALMTHOSH_NOTICE_WORDS];
static uint8_t data_memory[VALMTHOSH_DATA_BYTES_MOST], room[VALMTHOSH_PACKET_BYTES_MOST];

/* An array as a slice: a pointer and its length. */
#define WORDS(array) array, sizeof array / sizeof *array
#define BYTES(array) array, sizeof array

/* All that every call is lent. */
#define LENT WORDS(saved), WORDS(send_ram), WORDS(receive_ram), BYTES(data_memory), WORDS(notice_memory)

/* From node 7 to slot 5 of node 9, incarnation 3: "Hello 01", a whole message of 8 bytes (use_msg_size). */
static const uint8_t packet[] = {
    0x00, 0x09, 0x00, 0x00, 0x00, 0x05, 0x00, 0x70, 0x83, 0x00, 0x00, 0x00, 0x00, 0x00, 0x00, 0x08,
    0x75, 0x9a, 0x00, 0x00, 0x48, 0x65, 0x6c, 0x6c, 0x6f, 0x20, 0x30, 0x31, 0xfd, 0x98, 0x00, 0x00,
};

/* What is written to the registers before the packet comes, and after. */
static const struct write {
    uint32_t number, value;
    const char *what;
} before[] = {
    {VALMTHOSH_PCSR0, 0x80000000, "reset"},
    {VALMTHOSH_PCSR0, 0x40030009, "enable; incarnation 3, node 9"},
    {VALMTHOSH_NBQR, 0x00000040, "NBQR: a block"},
    {VALMTHOSH_NBQR, 0x00000060, "NBQR: a block"},
    {VALMTHOSH_RECEIVE_POINTER, 0x00001028, "Receive RAM pointer to list 5"},
    {VALMTHOSH_RECEIVE_WORD_STEP, 0x00000020, "its head"},
    {VALMTHOSH_RECEIVE_WORD_STEP, 0x00000247, "token 0x123, enqueue"},
    {VALMTHOSH_RECEIVE_POINTER, 0x00000140, "Receive RAM pointer to slot 5"},
    {VALMTHOSH_RECEIVE_WORD_STEP, 0x00000100, "its base"},
    {VALMTHOSH_RECEIVE_WORD_STEP, 0x00000100, "its size"},
    {VALMTHOSH_RECEIVE_WORD_STEP, 0x0005B000, "note_index 5, valid, do_acks, notify"},
    {VALMTHOSH_SLOT_COUNT, 0x00000006, "slot count"},
}, after[] = {
    {VALMTHOSH_DESCRIPTORS + 4 * 1, 0x00070000, "descriptor 0: dst_node 7"},
    {VALMTHOSH_DESCRIPTORS + 4 * 2, 0x00050000, "dst_slot 5"},
    {VALMTHOSH_DESCRIPTORS + 4 * 3, 0x23000000, "ack_pkt, incarnation 3"},
    {VALMTHOSH_DESCRIPTORS + 4 * 5, 0x50000000, "control_pkt, go"},
};

static void show(const char *call, const char *what)
{
    printf("%-7s %-36s reply %2u, value %08x, interrupts %u\n", call, what, answer[0], answer[1], answer[2]);
}

static void write_all(const struct write *writes, size_t count)
{
    for (size_t i = 0; i < count; i++) {
        valmthosh_write(LENT, writes[i].number, writes[i].value, WORDS(answer));
        show("write", writes[i].what);
    }
}

static void read_one(uint32_t number, const char *what)
{
    valmthosh_read(LENT, number, WORDS(answer));
    show("read", what);
}

static void take(const char *what)
{
    valmthosh_take(LENT, 5, WORDS(notice), WORDS(answer));
    show("take", what);
}

int main(void)
{
    write_all(before, sizeof before / sizeof *before);
    valmthosh_receive(LENT, BYTES(packet), WORDS(answer));
    show("receive", "the packet");
    printf("slot 5: %.8s\n", (const char *)&data_memory[0x100]);
    read_one(VALMTHOSH_NQR, "NQR: the list's token");
    read_one(VALMTHOSH_AQR, "AQR: the slot, to be acked");
    take("list 5");
    printf("notice:");
    for (int i = 0; i < VALMTHOSH_NOTICE_WORDS; i++)
        printf(" %08x", notice[i]);
    printf("\n");
    take("list 5 again");
    write_all(after, sizeof after / sizeof *after);
    valmthosh_send(LENT, 1, BYTES(room), WORDS(answer));
    show("send", "the ack");
    printf("ack:");
    for (uint32_t i = 0; i < answer[1]; i++)
        printf(" %02x", room[i]);
    printf("\n");
    read_one(VALMTHOSH_PACKETS_TAKEN, "packets taken");
    return 0;
}
