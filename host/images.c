#include "files.h"
#include "say.h"
#include "state.h"
#include "world.h"

#include <stdio.h>

#define ROM_BEGINS 0x20000000
#define BELT_BEGINS 0x30500000

/* RAM, where no size is asked for and no image is longer: room for a stack and data of firmware. */
#define RAM_USUAL 1048576

/* An image's length with the zeros behind it. */
static size_t padded(size_t length)
{
    size_t frames = (length + ECO32_FRAME_LENGTH - 1) / ECO32_FRAME_LENGTH;

    return frames * ECO32_FRAME_LENGTH;
}

/* A file that is too long is not read, so the host itself names the library's cause. */
static int read_refused(const char *path, size_t most, uint32_t refusal, struct bytes *bytes)
{
    int status = file_read(path, most, bytes);

    return status == FILE_LONGER ? say_refused(path, NULL, refusal) : status;
}

static int grow(struct bytes *bytes, size_t length, const char *subject, const char *value)
{
    return bytes_grow(bytes, length) ? STATUS_GOOD : say_no_memory(subject, value);
}

/* An image without a byte is nearly always one that was not built. */
static int check_image(const char *path, const struct bytes *image)
{
    return image->length != 0 ? STATUS_GOOD : say_bad(path, "the image is empty");
}

static int make_rom(const struct options *options, struct world *world)
{
    int status = read_refused(options->rom, ECO32_ROM_MOST, ECO32_REFUSED_ROM_LENGTH, &world->rom);

    if (status == STATUS_GOOD)
        status = check_image(options->rom, &world->rom);
    return status == STATUS_GOOD ? grow(&world->rom, padded(world->rom.length), options->rom, NULL) : status;
}

static int say_longer(const char *path, const char *size)
{
    char message[80];

    snprintf(message, sizeof message, "longer than --ram-size %s", size);
    return say_bad(path, message);
}

/* RAM of the size that was asked for, be it one that the library refuses. */
static int make_sized_ram(const struct options *options, struct world *world)
{
    const char *text = options->given[OPTION_RAM_SIZE];
    size_t size = (size_t)options->ram_size;
    int status = STATUS_GOOD;

    if (options->ram_size > ECO32_RAM_MOST)
        return say_refused("--ram-size", text, ECO32_REFUSED_RAM_LENGTH);
    if (options->ram != NULL)
        status = file_read(options->ram, size, &world->ram);
    if (status == FILE_LONGER)
        return say_longer(options->ram, text);
    if (status == STATUS_GOOD && options->ram != NULL)
        status = check_image(options->ram, &world->ram);
    return status == STATUS_GOOD ? grow(&world->ram, size, "--ram-size", text) : status;
}

static int make_ram(const struct options *options, struct world *world)
{
    int status = STATUS_GOOD;
    size_t size;

    if (options->given[OPTION_RAM_SIZE] != NULL)
        return make_sized_ram(options, world);
    if (options->ram != NULL)
        status = read_refused(options->ram, ECO32_RAM_MOST, ECO32_REFUSED_RAM_LENGTH, &world->ram);
    if (status == STATUS_GOOD && options->ram != NULL)
        status = check_image(options->ram, &world->ram);
    size = padded(world->ram.length);
    if (status != STATUS_GOOD)
        return status;
    return grow(&world->ram, size < RAM_USUAL ? RAM_USUAL : size, options->ram != NULL ? options->ram : "RAM", NULL);
}

static int make_belt(const struct options *options, struct world *world)
{
    const char *path = options->given[OPTION_BELT];

    if (path == NULL)
        return grow(&world->belt, ECO32_BELT_LENGTH, "belt registers", NULL);
    return read_refused(path, ECO32_BELT_LENGTH, ECO32_REFUSED_BELT_LENGTH, &world->belt);
}

/* A record without the timer, as versions before 0.3 wrote it, is read too: the library takes both lengths. */
static int make_machine(const struct options *options, struct world *world)
{
    const char *path = options->given[OPTION_LOAD];
    struct bytes record = {NULL, 0};
    uint32_t refusal;
    int status;

    if (path == NULL) {
        refusal = eco32_reset(world->machine, sizeof world->machine);
        return refusal == ECO32_ACCEPTED ? STATUS_GOOD : say_refused("reset", NULL, refusal);
    }
    status = read_refused(path, ECO32_RECORD_LENGTH, ECO32_REFUSED_RECORD_LENGTH, &record);
    if (status == STATUS_GOOD) {
        refusal = eco32_read_record(record.at, record.length, world->machine, sizeof world->machine);
        if (refusal != ECO32_ACCEPTED)
            status = say_refused(path, NULL, refusal);
    }
    bytes_free(&record);
    return status;
}

int world_make(const struct options *options, struct world *world)
{
    int status = make_rom(options, world);

    if (status == STATUS_GOOD)
        status = make_ram(options, world);
    if (status == STATUS_GOOD)
        status = make_belt(options, world);
    if (status == STATUS_GOOD)
        status = make_machine(options, world);
    return status;
}

void world_free(struct world *world)
{
    bytes_free(&world->ram);
    bytes_free(&world->rom);
    bytes_free(&world->belt);
}

static const uint8_t *word_in(const struct bytes *bytes, uint64_t begins, uint64_t physical)
{
    if (physical % 4 != 0 || physical < begins || bytes->length < 4 || physical - begins > bytes->length - 4)
        return NULL;
    return bytes->at + (physical - begins);
}

/* The timer answers at two words; its counter has no address. */
static int timer_word(const uint8_t *machine, uint64_t physical, uint32_t *word)
{
    if (physical != ECO32_TIMER_CONTROL && physical != ECO32_TIMER_DIVISOR)
        return 0;
    *word = physical == ECO32_TIMER_CONTROL ? state_timer_control(machine) : state_timer_divisor(machine);
    return 1;
}

int world_word(const struct world *world, uint64_t physical, uint32_t *word)
{
    const uint8_t *at = word_in(&world->ram, 0, physical);

    if (at == NULL)
        at = word_in(&world->rom, ROM_BEGINS, physical);
    if (at == NULL)
        at = word_in(&world->belt, BELT_BEGINS, physical);
    if (at == NULL)
        return timer_word(world->machine, physical, word);
    *word = word_at(at);
    return 1;
}

const char *world_part(uint64_t physical)
{
    if (physical < ROM_BEGINS)
        return "RAM";
    if (physical < ECO32_TIMER_CONTROL)
        return "ROM";
    return physical < BELT_BEGINS ? "timer" : "belt";
}
