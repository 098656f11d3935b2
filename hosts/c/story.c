/*
 * The worked story: payment and then a fare plugin on one disk. What it prints is hosts/story.txt, to be read from top to
 * bottom; every step is held to what is expected of it, and one that is not met ends the program.
 */
#include <stdio.h>

#include "guest.h"

enum {
    CYLINDERS = 4,
    HEADS = 2,
    SECTORS_PER_TRACK = 8,
    SECTORS_LENGTH = THINNAROM_SECTOR_BYTES * CYLINDERS * HEADS * SECTORS_PER_TRACK,
    TOKENS = 3,
    TOKENS_LBA = 16,
    TEXT = 120
};

/* What payment has on a disk and the plugin is to learn nothing of. */
typedef struct secrets {
    const char *password;
    const char *master;
    const char *tokens[TOKENS];
} secrets;

static const secrets PAYMENT = {
    "seven green minibuses at dawn",
    "workshop, second drawer",
    {"rider 1041, token 9f27-03c8-51aa-e6d4", "rider 1107, token 40be-7715-c9f0-2a83", "rider 1322, token d1c6-58e9-0b47-9f3e"}};

static const secrets ANOTHER = {
    "a heron stands in the ford",
    "ask the night clerk",
    {"rider 0007, token 1111-2222-3333-4444", "rider 0008, token 5555-6666-7777-8888", "rider 0009, token 9999-aaaa-bbbb-cccc"}};

static const char *const GUESSES[] = {"password", "12345678", "minibus", "payment", "letmein"};

typedef struct disk_and_sectors {
    thinnarom_disk disk;
    uint8_t sectors[SECTORS_LENGTH];
} disk_and_sectors;

/* Off while the plugin is given the second disk, where only the comparison counts. */
static bool telling = true;

static void tell(const char *what, const char *got) {
    if (telling) {
        printf("  %-66s %s\n", what, got);
    }
}

static void say(const char *text) {
    if (telling) {
        puts(text);
    }
}

/* ---- What a guest sees, in words ---- */

typedef struct named_bit {
    unsigned bit;
    const char *name;
} named_bit;

static const named_bit STATUS_BITS[] = {{THINNAROM_STATUS_BSY, " BSY"},
                                        {THINNAROM_STATUS_DRDY, " DRDY"},
                                        {THINNAROM_STATUS_DSC, " DSC"},
                                        {THINNAROM_STATUS_DRQ, " DRQ"},
                                        {THINNAROM_STATUS_ERR, " ERR"},
                                        {0, NULL}};
static const named_bit ERROR_BITS[] = {{THINNAROM_ERROR_IDNF, " IDNF"}, {THINNAROM_ERROR_ABRT, " ABRT"}, {0, NULL}};
static const named_bit SECURITY_BITS[] = {{THINNAROM_SECURITY_SUPPORTED, " supported"},
                                          {THINNAROM_SECURITY_ENABLED, ", enabled"},
                                          {THINNAROM_SECURITY_LOCKED, ", locked"},
                                          {THINNAROM_SECURITY_FROZEN, ", frozen"},
                                          {THINNAROM_SECURITY_EXPIRED, ", expired (no attempts left)"},
                                          {THINNAROM_SECURITY_MAXIMUM, ", maximum"},
                                          {0, NULL}};

static void add_names(char text[TEXT], unsigned value, const named_bit *names) {
    for (; names->name != NULL; names++) {
        if (value & names->bit) {
            strncat(text, names->name, TEXT - strlen(text) - 1);
        }
    }
}

static void add_status(char text[TEXT], uint8_t status) {
    size_t used = strlen(text);
    snprintf(text + used, TEXT - used, "Status %02Xh", (unsigned)status);
    add_names(text, status, STATUS_BITS);
}

/* Tells how a command stands, by Status and, after an error, Error. */
static void command_stands(guest *g, const char *what, uint8_t wanted) {
    char text[TEXT] = "";
    uint8_t status = guest_read(g, THINNAROM_STATUS);
    add_status(text, status);
    if (status & THINNAROM_STATUS_ERR) {
        size_t used = strlen(text);
        uint8_t error = guest_read(g, THINNAROM_ERROR);
        snprintf(text + used, TEXT - used, ", Error %02Xh", (unsigned)error);
        add_names(text, error, ERROR_BITS);
        expect(error == THINNAROM_ERROR_ABRT, "a command that fails here was aborted");
    }
    tell(what, text);
    expect(status == wanted, what);
}

/* ---- What both guests do ---- */

static void run(guest *g, uint8_t code, const char *what, uint8_t wanted) {
    guest_write(g, THINNAROM_COMMAND, code);
    command_stands(g, what, wanted);
}

/* Asks a locked disk for the tokens, which it refuses. */
static void ask_for_tokens(guest *g, const char *what) {
    guest_command_at(g, THINNAROM_READ_SECTORS, TOKENS_LBA, TOKENS);
    command_stands(g, what, STATUS_FAILED);
}

static void send_password(guest *g, uint8_t code, const char *password, const char *what, uint8_t wanted) {
    uint8_t block[THINNAROM_SECTOR_BYTES];
    password_block(block, 0, password);
    guest_write(g, THINNAROM_COMMAND, code);
    expect(guest_read(g, THINNAROM_ALTERNATE_STATUS) == STATUS_WORD_DUE, "the disk takes a password block");
    expect(guest_write_words(g, block, sizeof block) == THINNAROM_BLOCK_WORDS, "a password block passes whole");
    command_stands(g, what, wanted);
}

static void identify(guest *g, uint16_t wanted) {
    uint8_t block[THINNAROM_SECTOR_BYTES];
    char text[TEXT];
    guest_write(g, THINNAROM_COMMAND, THINNAROM_IDENTIFY_DEVICE);
    expect(guest_read_words(g, block, sizeof block) == THINNAROM_BLOCK_WORDS, "IDENTIFY DEVICE gives a block");
    g->identify_words += THINNAROM_BLOCK_WORDS;
    uint16_t security = word_of(block, THINNAROM_SECURITY_WORD);
    snprintf(text, sizeof text, "word 128 is %04Xh:", (unsigned)security);
    add_names(text, security, SECURITY_BITS);
    tell("IDENTIFY DEVICE (ECh)", text);
    expect(security == wanted, "IDENTIFY DEVICE tells the lock as it is");
}

/* READ BUFFER, word by word; all of them have to be zero. */
static void read_buffer(guest *g, const char *what) {
    guest_write(g, THINNAROM_COMMAND, THINNAROM_READ_BUFFER);
    unsigned zeros = 0;
    for (int i = 0; i < THINNAROM_BLOCK_WORDS; i++) {
        thinnarom_reply reply = guest_read_word(g);
        expect(reply.answer == THINNAROM_DONE, "READ BUFFER gives 256 words");
        zeros += reply.value == 0;
    }
    g->zero_words += zeros;
    tell(what, zeros == THINNAROM_BLOCK_WORDS ? "256 words, all zero" : "words that are not zero");
    expect(zeros == THINNAROM_BLOCK_WORDS, "nothing stands in the buffer");
}

static void power_on(thinnarom_disk *disk, const char *leaves) {
    expect(thinnarom_disk_power_on(disk).answer == THINNAROM_DONE, "the disk is powered on");
    tell("power-on", leaves);
}

/* ---- The host and payment ---- */

static void lay_tokens(uint8_t *sectors, const secrets *of) {
    memset(sectors, 0, TOKENS * THINNAROM_SECTOR_BYTES);
    for (size_t i = 0; i < TOKENS; i++) {
        memcpy(sectors + i * THINNAROM_SECTOR_BYTES, of->tokens[i], strlen(of->tokens[i]));
    }
}

static void make_disk(disk_and_sectors *made, const secrets *of) {
    uint8_t identity[THINNAROM_IDENTITY_BYTES], master[THINNAROM_PASSWORD_BYTES] = {0};
    thinnarom_identity(identity, "BUS-0042", "1.0", "THINNAROM");
    memcpy(master, of->master, strlen(of->master));
    memset(made->sectors, 0, sizeof made->sectors);
    thinnarom_disk_lend(&made->disk, made->sectors, sizeof made->sectors);
    thinnarom_reply reply = thinnarom_disk_setup(&made->disk, CYLINDERS, HEADS, SECTORS_PER_TRACK, identity, master);
    expect(reply.answer == THINNAROM_DONE, "setup takes the geometry");
    tell("setup, 4 cylinders x 2 heads x 8 sectors", "64 sectors, in memory that the host lends");
}

static void provision(thinnarom_disk *disk, const secrets *of) {
    guest payment = guest_on(disk);
    uint8_t sectors[TOKENS * THINNAROM_SECTOR_BYTES];
    lay_tokens(sectors, of);
    guest_command_at(&payment, THINNAROM_WRITE_SECTORS, TOKENS_LBA, TOKENS);
    expect(guest_write_words(&payment, sectors, sizeof sectors) == TOKENS * THINNAROM_BLOCK_WORDS, "the tokens are written");
    command_stands(&payment, "WRITE SECTORS (30h), LBA 16, 3 sectors: the tokens", STATUS_IDLE);
    send_password(&payment, THINNAROM_SECURITY_SET_PASSWORD, of->password,
                  "SECURITY SET PASSWORD (F1h), user, level High", STATUS_IDLE);
    power_on(disk, "locked from now on, until the password comes");
}

static void read_tokens(guest *payment, const secrets *of) {
    uint8_t wanted[TOKENS * THINNAROM_SECTOR_BYTES], sectors[TOKENS * THINNAROM_SECTOR_BYTES];
    guest_command_at(payment, THINNAROM_READ_SECTORS, TOKENS_LBA, TOKENS);
    expect(thinnarom_disk_line(payment->disk).value == 1, "the interrupt line tells that a sector is ready");
    expect(guest_read_words(payment, sectors, sizeof sectors) == TOKENS * THINNAROM_BLOCK_WORDS, "the tokens are read");
    command_stands(payment, "READ SECTORS (20h), LBA 16, 3 sectors", STATUS_IDLE);
    lay_tokens(wanted, of);
    expect(memcmp(sectors, wanted, sizeof sectors) == 0, "the tokens are those that were written");
    for (size_t i = 0; i < TOKENS; i++) {
        printf("      LBA %d: %s\n", TOKENS_LBA + (int)i, (const char *)(sectors + i * THINNAROM_SECTOR_BYTES));
    }
}

static void payment_opens(thinnarom_disk *disk, const secrets *of) {
    guest payment = guest_on(disk);
    identify(&payment, 0x0007);
    ask_for_tokens(&payment, "READ SECTORS (20h), before the password");
    send_password(&payment, THINNAROM_SECURITY_UNLOCK, of->password, "SECURITY UNLOCK (F2h), payment's password", STATUS_IDLE);
    read_tokens(&payment, of);
}

/* ---- The plugin ---- */

static void looks_around(guest *plugin) {
    static const uint8_t START[] = {0x01, 0x01, 0x01, 0x00, 0x00, 0x00};
    char text[TEXT] = "";
    uint8_t status = guest_read(plugin, THINNAROM_STATUS);
    add_status(text, status);
    tell("reads Status", text);
    expect(status == STATUS_IDLE, "the disk is idle");
    text[0] = '\0';
    for (uint8_t n = THINNAROM_ERROR; n <= THINNAROM_DEVICE_HEAD; n++) {
        uint8_t value = guest_read(plugin, n);
        size_t used = strlen(text);
        snprintf(text + used, TEXT - used, "%02Xh ", (unsigned)value);
        expect(value == START[n - 1], "registers 1 to 6 have their start values");
    }
    strncat(text, "(start values)", TEXT - strlen(text) - 1);
    tell("reads registers 1 to 6", text);
    expect(guest_read_word(plugin).answer == THINNAROM_NO_TRANSFER, "no word without a transfer");
    tell("reads a data word with no command open", "answer 4, no transfer that way");
    read_buffer(plugin, "READ BUFFER (E4h), for payment's last sector");
    identify(plugin, 0x0007);
}

static void asks_for_sectors(guest *plugin) {
    ask_for_tokens(plugin, "READ SECTORS (20h), LBA 16, 3 sectors");
    run(plugin, THINNAROM_READ_VERIFY_SECTORS, "READ VERIFY SECTORS (40h)", STATUS_FAILED);
    run(plugin, THINNAROM_WRITE_SECTORS, "WRITE SECTORS (30h)", STATUS_FAILED);
    run(plugin, THINNAROM_SECURITY_SET_PASSWORD, "SECURITY SET PASSWORD (F1h)", STATUS_FAILED);
    run(plugin, THINNAROM_SECURITY_DISABLE_PASSWORD, "SECURITY DISABLE PASSWORD (F6h)", STATUS_FAILED);
}

/* Sends the first words of a password block, and then another Command in the middle of it. */
static void cuts_a_password(guest *plugin, size_t words, const char *what) {
    uint8_t block[THINNAROM_SECTOR_BYTES];
    password_block(block, 0, "half of this is not a password..");
    guest_write(plugin, THINNAROM_COMMAND, THINNAROM_SECURITY_UNLOCK);
    expect(guest_write_words(plugin, block, 2 * words) == words, "part of a password block passes");
    read_buffer(plugin, what);
}

static void resets(guest *plugin) {
    char text[TEXT] = "";
    add_status(text, guest_software_reset(plugin));
    strncat(text, ", then ", TEXT - strlen(text) - 1);
    add_status(text, guest_read(plugin, THINNAROM_STATUS));
    tell("software reset, SRST set and cleared", text);
    expect(strcmp(text, "Status 80h BSY, then Status 50h DRDY DSC") == 0, "a software reset shows BSY while it is held");
}

static void guesses(guest *plugin) {
    char what[TEXT];
    for (unsigned i = 0; i < sizeof GUESSES / sizeof GUESSES[0]; i++) {
        snprintf(what, sizeof what, "SECURITY UNLOCK (F2h), guess %u: \"%s\"", i + 1, GUESSES[i]);
        send_password(plugin, THINNAROM_SECURITY_UNLOCK, GUESSES[i], what, STATUS_FAILED);
        if (i % 2 == 1) {
            resets(plugin);
        }
    }
    read_buffer(plugin, "READ BUFFER (E4h), for what is left of the last guess");
    identify(plugin, 0x0017);
    resets(plugin);
}

/* After five mismatches the disk takes no password block at all, so the right one can't even be sent. */
static void tries_the_right_one(guest *plugin) {
    uint8_t block[THINNAROM_SECTOR_BYTES];
    run(plugin, THINNAROM_SECURITY_UNLOCK, "SECURITY UNLOCK (F2h), with payment's own password in hand", STATUS_FAILED);
    password_block(block, 0, PAYMENT.password);
    expect(guest_write_words(plugin, block, sizeof block) == 0, "no word of the right password passes");
    expect(guest_write_word(plugin, word_of(block, 0)).answer == THINNAROM_NO_TRANSFER, "the disk takes no password block");
    tell("writes its words all the same", "answer 4, no transfer that way");
    run(plugin, THINNAROM_SECURITY_ERASE_PREPARE, "SECURITY ERASE PREPARE (F3h)", STATUS_IDLE);
    run(plugin, THINNAROM_SECURITY_ERASE_UNIT, "SECURITY ERASE UNIT (F4h)", STATUS_FAILED);
    ask_for_tokens(plugin, "READ SECTORS (20h), LBA 16, 3 sectors");
    read_buffer(plugin, "READ BUFFER (E4h)");
    identify(plugin, 0x0017);
}

static void plugin_tries_everything(guest *plugin) {
    looks_around(plugin);
    say("\n  It asks for sectors, and for the lock.");
    asks_for_sectors(plugin);
    say("\n  It sends half a password and looks whether that half stays in the buffer.");
    cuts_a_password(plugin, 9, "SECURITY UNLOCK (F2h), 9 of 256 words, then READ BUFFER (E4h)");
    cuts_a_password(plugin, 255, "SECURITY UNLOCK (F2h), 255 of 256 words, then READ BUFFER (E4h)");
    say("\n  It tries to erase what it can't read.");
    run(plugin, THINNAROM_SECURITY_ERASE_PREPARE, "SECURITY ERASE PREPARE (F3h)", STATUS_IDLE);
    send_password(plugin, THINNAROM_SECURITY_ERASE_UNIT, "wipe", "SECURITY ERASE UNIT (F4h), a guess: \"wipe\"", STATUS_FAILED);
    say("\n  It guesses, and hopes that a software reset gives attempts back.");
    guesses(plugin);
    say("\n  No attempts are left. Now somebody tells it the right password.");
    tries_the_right_one(plugin);
}

/* ---- The story ---- */

static void opening(disk_and_sectors *bus) {
    puts("One disk, two guests");
    puts("====================\n");
    puts("The tablet of a minibus runs its guests one after the other on one emulated disk. Payment keeps riders' card tokens");
    puts("there; a fare plugin has the next turn. Guests have registers, data words and the interrupt line. Memory, resets by");
    puts("hardware and power are the host's. Left is what a guest or the host does, right what the disk shows: Status 50h is");
    puts("idle after a good end, Status 51h with Error 04h is a command that was aborted.\n");
    puts("1. The host makes the disk, payment fills it");
    puts("");
    make_disk(bus, &PAYMENT);
    provision(&bus->disk, &PAYMENT);
    puts("\n2. Payment's turn");
    puts("");
    payment_opens(&bus->disk, &PAYMENT);
    const char *last = PAYMENT.tokens[TOKENS - 1];
    expect(memcmp(bus->disk.buffer, last, strlen(last)) == 0, "the last token stands in the sector buffer");
    puts("  Payment ends here. The disk is open, and the last token still stands in its sector buffer.\n");
    puts("3. Before anyone else has a turn, the host switches the disk off and on");
    puts("");
    power_on(&bus->disk, "locked, buffer zeroed, five attempts");
}

/* Gives the same plugin a disk with other tokens and passwords; whether it is told the very same. */
static bool learns_the_same_elsewhere(const guest *plugin) {
    static disk_and_sectors other;
    telling = false;
    make_disk(&other, &ANOTHER);
    provision(&other.disk, &ANOTHER);
    guest same = guest_on(&other.disk);
    plugin_tries_everything(&same);
    telling = true;
    return same.heard == plugin->heard && same.words == plugin->words;
}

static void middle(disk_and_sectors *bus) {
    static uint8_t before[SECTORS_LENGTH];
    guest plugin = guest_on(&bus->disk);
    char text[TEXT];
    puts("\n4. The plugin's turn; it has no password");
    puts("");
    memcpy(before, bus->sectors, sizeof before);
    plugin_tries_everything(&plugin);
    puts("\n5. What the plugin got, as the host sees it");
    puts("");
    snprintf(text, sizeof text, "%lu: %lu of IDENTIFY DEVICE, %lu zeros of READ BUFFER", plugin.words, plugin.identify_words,
             plugin.zero_words);
    tell("data words that it was given", text);
    expect(plugin.words == plugin.identify_words + plugin.zero_words, "the plugin was given nothing else");
    expect(memcmp(before, bus->sectors, sizeof before) == 0, "the plugin changed no sector");
    tell("sectors that it changed", "none");
    expect(learns_the_same_elsewhere(&plugin), "a disk with other tokens and passwords tells the plugin the same");
    tell("the same plugin on a disk with other tokens and other passwords", "not one answer differs");
    puts("  So it is for every guest that never sends a right password: that is proved, docs/ROOM.md says how.");
}

int main(void) {
    static disk_and_sectors bus;
    opening(&bus);
    middle(&bus);
    puts("\n6. The host switches the disk off and on, and payment has its next turn");
    puts("");
    power_on(&bus.disk, "locked, buffer zeroed, five attempts");
    payment_opens(&bus.disk, &PAYMENT);
    puts("\nEvery step went as expected.");
    return 0;
}
