#include "view.h"

#include <string.h>

enum {
    MOST = SOFFITFENNEL_COMMAND + 1,
    SELECT = 0xA4, SEARCH = 0xA2, INCREASE = 0x32, GET_RESPONSE = 0xC0, STATUS = 0xF2,
    TERMINAL_CAPABILITY = 0xAA, TERMINAL_PROFILE = 0x10,
    BY_IDENTIFIER = 0x00, BY_NAME = 0x04, BY_PATH = 0x08, FROM_CURRENT = 0x09,
    WITH_TEMPLATE = 0x04, WITHOUT_DATA = 0x0C,
    TEMPLATE = 0x62, CONTROL_INFORMATION = 0x6F, DESCRIPTOR = 0x82, NAME = 0x84, PIN_STATUS = 0xC6
};

/* A command whose parts are found. */
struct apdu {
    uint8_t bytes[MOST];
    size_t count;
};

/* The length of a command's data, of a whole command. */
static size_t data_size(const struct apdu *apdu) { return apdu->count > 5 ? apdu->bytes[4] : 0; }

/* Whether a command's length is what its Lc says; the card refuses it otherwise. */
static bool is_whole(const struct apdu *apdu)
{
    size_t rest = apdu->count - 4;

    return rest < 2 || (apdu->bytes[4] > 0 && (rest == 1u + apdu->bytes[4] || rest == 2u + apdu->bytes[4]));
}

static bool has_le(const struct apdu *apdu) { return apdu->count == 5 || apdu->count == 6 + data_size(apdu); }

static int32_t status(uint8_t *answer, size_t *size, unsigned word)
{
    answer[0] = (uint8_t)(word >> 8), answer[1] = (uint8_t)word;
    *size = 2;
    return SOFFITFENNEL_DONE;
}

static unsigned status_of(const uint8_t *answer, size_t size)
{
    return size < 2 ? 0 : (unsigned)answer[size - 2] << 8 | answer[size - 1];
}

static bool is_done(int32_t outcome, const uint8_t *answer, size_t size)
{
    unsigned first = status_of(answer, size) >> 8;

    return outcome == SOFFITFENNEL_DONE && (first == 0x90 || first == 0x62 || first == 0x63);
}

/* ---- UICC: TS 102 221's words that the card leaves out */

static int32_t to_card(struct view *view, const struct apdu *apdu, uint8_t *answer, size_t *size)
{
    return slot_command(view->slot, apdu->bytes, apdu->count, answer, size);
}

static int32_t select_by(struct view *view, uint8_t way, const uint8_t *data, size_t count, uint8_t *answer,
                         size_t *size)
{
    struct apdu apdu = {{0x00, SELECT, way, WITH_TEMPLATE, (uint8_t)count}, 6 + count};

    memcpy(apdu.bytes + 5, data, count);
    return to_card(view, &apdu, answer, size);
}

/* An object of a template, or NULL. */
static const uint8_t *object_in(const uint8_t *template, size_t size, uint8_t tag)
{
    for (size_t at = 2; at + 2 <= size && at + 2 + template[at + 1] <= size; at += 2u + template[at + 1])
        if (template[at] == tag)
            return template + at;
    return NULL;
}

static bool is_df(const uint8_t *template, size_t size)
{
    const uint8_t *descriptor = size > 2 && template[0] == TEMPLATE ? object_in(template, size, DESCRIPTOR) : NULL;

    return descriptor != NULL && descriptor[1] > 0 && (descriptor[2] & 0x38) == 0x38;
}

/* Keeps the template of a DF with its status behind it, which STATUS gives. An application stays the current one until
 * another one is selected. */
static void keep_template(struct view *view, const uint8_t *answer, size_t size)
{
    const uint8_t *name = object_in(answer, size - 2, NAME);

    memcpy(view->template, answer, size - 2);
    view->template_size = size - 2;
    if (name != NULL && name[1] <= MOST_NAME) {
        view->application.size = name[1];
        memcpy(view->application.bytes, name + 2, name[1]);
    }
}

/* Puts the states of PINs behind a DF's template, as far as there is room. */
static void add_pin_status(struct view *view, uint8_t *answer, size_t *size)
{
    uint8_t object[4 + 3 * 3 + 1] = {PIN_STATUS, 0, 0x90, 0x01, 0x00};
    size_t at = 5, end = *size - 2;
    unsigned place = 0x80;
    uint8_t word[2] = {answer[end], answer[end + 1]};

    object[at] = 0x83, object[at + 1] = 1, object[at + 2] = 1, at += 3;
    object[4] |= slot_has_pin(view->slot, 1) ? place : 0;
    for (int reference = 0; reference < 256; reference++) {
        if (view->settings->pins[reference] == 0 || at + 3 > sizeof object)
            continue;
        place >>= 1;
        object[4] |= slot_has_pin(view->slot, view->settings->pins[reference]) ? place : 0;
        object[at] = 0x83, object[at + 1] = 1, object[at + 2] = (uint8_t)reference, at += 3;
    }
    object[1] = (uint8_t)(at - 2);
    if (answer[1] + at > 0x7F || *size + at > SOFFITFENNEL_ROOM)
        return;
    memcpy(answer + end, object, at);
    memcpy(answer + end + at, word, sizeof word);
    answer[1] = (uint8_t)(answer[1] + at);
    *size += at;
}

/* The name in a record of EF.DIR, if it has one. */
static void keep_name(struct view *view, const uint8_t *record, size_t size)
{
    if (size < 6 || record[0] != 0x61 || record[2] != 0x4F || record[3] > MOST_NAME || size < 6u + record[3])
        return;
    struct name *name = &view->names[view->name_count++];
    name->size = record[3];
    memcpy(name->bytes, record + 4, name->size);
}

/* The names of EF.DIR, in its order; then the MF is selected, as power-on leaves it. */
static void read_names(struct view *view)
{
    static const uint8_t directory[] = {0x2F, 0x00}, master[] = {0x3F, 0x00};
    uint8_t answer[SOFFITFENNEL_ROOM];
    size_t size = 0;

    view->name_count = 0;
    int32_t outcome = select_by(view, BY_PATH, directory, sizeof directory, answer, &size);
    for (uint8_t number = 1; is_done(outcome, answer, size) && view->name_count < MOST_NAMES; number++) {
        struct apdu read = {{0x00, 0xB2, number, 0x04, 0x00}, 5};
        outcome = to_card(view, &read, answer, &size);
        if (is_done(outcome, answer, size))
            keep_name(view, answer, size);
    }
    outcome = select_by(view, BY_IDENTIFIER, master, sizeof master, answer, &size);
    if (is_done(outcome, answer, size) && size > 2) {
        add_pin_status(view, answer, &size);
        keep_template(view, answer, size);
    }
}

/* STATUS: the current DF's template, its name, or nothing. */
static int32_t give_status(struct view *view, const struct apdu *apdu, uint8_t *answer, size_t *size)
{
    uint8_t way = apdu->bytes[2], form = apdu->bytes[3];
    size_t room = apdu->count == 5 && apdu->bytes[4] != 0 ? apdu->bytes[4] : 256, count = 0;

    if (way > 2 || (form != 0x00 && form != 0x01 && form != WITHOUT_DATA))
        return status(answer, size, 0x6A86);
    if (form == WITHOUT_DATA || apdu->count < 5)
        return status(answer, size, 0x9000);
    if (view->template_size == 0) /* a path from the current DF led to an EF elsewhere */
        return status(answer, size, 0x6F00);
    if (form == 0x01 && view->application.size > 0) {
        answer[0] = NAME, answer[1] = view->application.size;
        memcpy(answer + 2, view->application.bytes, view->application.size);
        count = 2u + view->application.size;
    } else if (form == 0x00)
        memcpy(answer, view->template, count = view->template_size);
    if (room < 256 && count != room)
        return status(answer, size, 0x6C00 | (unsigned)count);
    status(answer + count, size, 0x9000);
    *size += count;
    return SOFFITFENNEL_DONE;
}

/* A name by its beginning, in the order of EF.DIR; NULL where a name is whole, or unknown. */
static const struct name *by_beginning(const struct view *view, const uint8_t *data, size_t count)
{
    const struct name *found = NULL;

    for (int i = view->name_count - 1; i >= 0; i--) {
        const struct name *name = &view->names[i];
        if (count == name->size && memcmp(name->bytes, data, count) == 0)
            return NULL;
        if (count >= 5 && count < name->size && memcmp(name->bytes, data, count) == 0)
            found = name;
    }
    return found;
}

/* SELECT: the way and the data that the card knows. False: 7FFF where no application is. */
static bool translate_select(struct view *view, struct apdu *apdu, uint8_t *answer, size_t *size)
{
    uint8_t way = apdu->bytes[2], *data = apdu->bytes + 5;
    size_t count = data_size(apdu);
    const struct name *name = way == BY_NAME ? by_beginning(view, data, count) : NULL;
    bool is_current = (way == BY_IDENTIFIER || way == BY_PATH) && count >= 2 && data[0] == 0x7F && data[1] == 0xFF;

    if (is_current && view->application.size == 0)
        return false;
    if (is_current && count > 2) { /* the application, and a path below it */
        int32_t outcome = select_by(view, BY_NAME, view->application.bytes, view->application.size, answer, size);
        if (!is_done(outcome, answer, *size))
            return false;
        apdu->bytes[2] = FROM_CURRENT;
        memmove(data, data + 2, count - 2);
        apdu->bytes[4] = (uint8_t)(count - 2);
        return true;
    }
    name = is_current ? &view->application : name;
    if (name != NULL) {
        apdu->bytes[2] = BY_NAME;
        apdu->bytes[4] = name->size;
        memcpy(data, name->bytes, name->size);
    }
    return true;
}

/* Sends a SELECT that asks for the template. */
static int32_t ask_template(struct view *view, const struct apdu *given, uint8_t le, uint8_t *answer, size_t *size)
{
    struct apdu apdu = *given;

    if (!translate_select(view, &apdu, answer, size))
        return status(answer, size, 0x6A82);
    apdu.bytes[3] = WITH_TEMPLATE;
    apdu.count = data_size(&apdu) == 0 ? 4 : 5 + data_size(&apdu);
    apdu.bytes[apdu.count++] = le;
    return to_card(view, &apdu, answer, size);
}

/* An EF below another DF changes the current DF, whose template is asked for too: by the path without its end. */
static int32_t select_below(struct view *view, const struct apdu *given, uint8_t le, uint8_t *answer, size_t *size)
{
    struct apdu above = *given;

    view->template_size = 0;
    if (given->bytes[2] != BY_PATH)
        return SOFFITFENNEL_DONE;
    above.bytes[4] = (uint8_t)(above.bytes[4] - 2);
    above.count = 5u + above.bytes[4];
    int32_t outcome = ask_template(view, &above, 0x00, answer, size);
    if (is_done(outcome, answer, *size) && is_df(answer, *size - 2)) {
        add_pin_status(view, answer, size);
        keep_template(view, answer, *size);
    }
    return outcome == SOFFITFENNEL_DONE ? ask_template(view, given, le, answer, size) : outcome;
}

/* SELECT always asks for the template, which says whether the file is a DF; the client gets it if it asks. */
static int32_t select_file(struct view *view, const struct apdu *given, uint8_t *answer, size_t *size)
{
    bool is_asked = given->bytes[3] == WITH_TEMPLATE && has_le(given);
    uint8_t le = is_asked ? given->bytes[given->count - 1] : 0;

    if (!is_whole(given) || (given->bytes[3] != WITH_TEMPLATE && given->bytes[3] != WITHOUT_DATA))
        return to_card(view, given, answer, size);
    int32_t outcome = ask_template(view, given, le, answer, size);
    if (!is_done(outcome, answer, *size) || *size <= 2)
        return outcome;
    if (is_df(answer, *size - 2)) {
        add_pin_status(view, answer, size);
        keep_template(view, answer, *size);
    } else if (data_size(given) > 2 && (given->bytes[2] == BY_PATH || given->bytes[2] == FROM_CURRENT))
        outcome = select_below(view, given, le, answer, size);
    return is_asked || outcome != SOFFITFENNEL_DONE ? outcome : status(answer, size, status_of(answer, *size));
}

static bool is_of_pin(uint8_t instruction) { return memchr("\x20\x24\x26\x28\x2C", instruction, 5) != NULL; }

static int32_t as_uicc(struct view *view, const struct apdu *given, uint8_t *answer, size_t *size)
{
    struct apdu apdu = *given;
    uint8_t class = apdu.bytes[0], instruction = apdu.bytes[1];

    if (!view->settings->has_uicc || apdu.count < 4)
        return to_card(view, given, answer, size);
    if (view->name_count < 0)
        read_names(view);
    if (class == 0x80 && instruction == STATUS)
        return give_status(view, given, answer, size);
    if (class == 0x80 && (instruction == TERMINAL_CAPABILITY || instruction == TERMINAL_PROFILE))
        return status(answer, size, 0x9000);
    if (class == 0x00 && is_of_pin(instruction) && view->settings->pins[apdu.bytes[3]] != 0)
        apdu.bytes[3] = view->settings->pins[apdu.bytes[3]];
    if (class == 0x00 && instruction == SELECT)
        return select_file(view, &apdu, answer, size);
    return to_card(view, &apdu, answer, size);
}

/* ---- old forms of SELECT */

/* P1 01 and 02 become 00. P2 00 asks for control information: the template, in tag 6F; without Le for nothing. */
static int32_t as_old(struct view *view, const struct apdu *given, uint8_t *answer, size_t *size)
{
    struct apdu apdu = *given;
    bool is_select = view->settings->has_translation && apdu.count >= 4 && (apdu.bytes[0] & 0xFC) == 0
                     && apdu.bytes[1] == SELECT;
    bool is_asked = is_select && apdu.bytes[3] == 0x00;

    if (is_select && (apdu.bytes[2] == 0x01 || apdu.bytes[2] == 0x02))
        apdu.bytes[2] = BY_IDENTIFIER;
    if (is_asked)
        apdu.bytes[3] = has_le(&apdu) ? WITH_TEMPLATE : WITHOUT_DATA;
    int32_t outcome = as_uicc(view, &apdu, answer, size);
    if (is_asked && outcome == SOFFITFENNEL_DONE && *size > 2 && answer[0] == TEMPLATE)
        answer[0] = CONTROL_INFORMATION;
    return outcome;
}

/* ---- T=0 */

/* GET RESPONSE: the next bytes of the answer that waits. */
static int32_t get_response(struct view *view, const struct apdu *given, uint8_t *answer, size_t *size)
{
    size_t wanted = given->bytes[4] == 0 ? 256 : given->bytes[4];
    size_t left = view->kept_size == 0 ? 0 : view->kept_size - 2 - view->kept_at;

    if (left == 0)
        return status(answer, size, 0x6F00);
    if (wanted > left)
        return status(answer, size, 0x6C00 | (unsigned)(left & 0xFF));
    memcpy(answer, view->kept + view->kept_at, wanted);
    view->kept_at += wanted;
    if (wanted < left)
        status(answer + wanted, size, 0x6100 | (unsigned)((left - wanted) & 0xFF));
    else {
        status(answer + wanted, size, status_of(view->kept, view->kept_size));
        view->kept_size = 0;
    }
    *size += wanted;
    return SOFFITFENNEL_DONE;
}

/* A T=0 command, whose P3 is Lc or Le, as the card has it. */
static struct apdu of_t0(const struct apdu *given)
{
    struct apdu apdu = *given;
    uint8_t instruction = apdu.bytes[1];
    bool sends = is_of_pin(instruction) || instruction == SELECT || instruction == 0x04 || instruction == 0x44
                 || instruction == 0xE4 || instruction == 0xE6 || instruction == 0xE8 || instruction == 0xFE;
    bool answers = (instruction == SELECT && apdu.bytes[3] != WITHOUT_DATA) || instruction == SEARCH
                   || instruction == INCREASE;

    if (apdu.count == 5 && apdu.bytes[4] == 0 && sends)
        apdu.count = 4; /* no data: P3 is 00 */
    else if (apdu.count > 5 && answers)
        apdu.bytes[apdu.count++] = 0x00;
    return apdu;
}

static int32_t as_t0(struct view *view, const struct apdu *given, uint8_t *answer, size_t *size)
{
    if (!view->settings->has_t0 || given->count < 4)
        return as_old(view, given, answer, size);
    if (given->count >= 5 && given->bytes[1] == GET_RESPONSE)
        return get_response(view, given, answer, size);
    struct apdu apdu = of_t0(given);
    int32_t outcome = as_old(view, &apdu, answer, size);

    view->kept_size = 0;
    if (outcome == SOFFITFENNEL_DONE && given->count > 5 && *size > 2) {
        memcpy(view->kept, answer, *size);
        view->kept_size = *size, view->kept_at = 0;
        return status(answer, size, 0x6100 | (unsigned)((*size - 2) & 0xFF));
    }
    return outcome;
}

void view_reset(struct view *view)
{
    view->kept_size = view->template_size = 0;
    view->application.size = 0;
    view->name_count = -1;
}

int32_t view_command(struct view *view, const uint8_t *command, size_t count, uint8_t *answer, size_t *size)
{
    struct apdu apdu = {.count = count};

    *size = 0;
    if (count == 0 || count > SOFFITFENNEL_COMMAND) /* no command of the card: wrong length */
        return status(answer, size, 0x6700);
    memcpy(apdu.bytes, command, count);
    return as_t0(view, &apdu, answer, size);
}
