/* GnuPG's end of T=1 for tools/badcard: scd/ccid-driver.c of Debian's source package gnupg2, unchanged. In place of
 * libusb is a reader that passes on what the card sends. */
#include "reader_lines.h"

/* What the driver takes from headers that need not be there: of scd/, libgpg-error, npth and libusb. */
#define SCDAEMON_H
#define ISO7816_H
#define HAVE_LIBUSB

typedef int gpg_error_t, npth_t, npth_attr_t;
typedef struct {
    int fixedlen, minlen, maxlen;
} pininfo_t;
typedef struct libusb_context libusb_context;
typedef struct libusb_device libusb_device;
typedef struct libusb_device_handle libusb_device_handle;

enum { GPG_ERR_ENODEV = 1, NPTH_CREATE_DETACHED };
enum { LIBUSB_ERROR_IO = -20, LIBUSB_ERROR_ACCESS, LIBUSB_ERROR_NO_DEVICE, LIBUSB_ERROR_NOT_FOUND, LIBUSB_ERROR_BUSY,
       LIBUSB_ERROR_TIMEOUT, LIBUSB_ERROR_OVERFLOW };
enum { LIBUSB_TRANSFER_COMPLETED = 1, LIBUSB_TRANSFER_TIMED_OUT, LIBUSB_TRANSFER_CANCELLED, LIBUSB_TRANSFER_OVERFLOW };
enum { LIBUSB_DT_STRING = 1, LIBUSB_DT_ENDPOINT, LIBUSB_ENDPOINT_IN, LIBUSB_REQUEST_GET_DESCRIPTOR,
       LIBUSB_TRANSFER_TYPE_MASK, LIBUSB_TRANSFER_TYPE_BULK, LIBUSB_TRANSFER_TYPE_INTERRUPT };

struct libusb_device_descriptor {
    int idVendor, idProduct, bcdDevice, iSerialNumber;
};
struct libusb_endpoint_descriptor {
    int bDescriptorType, bmAttributes, bEndpointAddress;
};
struct libusb_interface_descriptor {
    int bNumEndpoints, bInterfaceClass, bInterfaceSubClass, bInterfaceProtocol, extra_length;
    const struct libusb_endpoint_descriptor *endpoint;
    const unsigned char *extra;
};
struct libusb_interface {
    int num_altsetting;
    const struct libusb_interface_descriptor *altsetting;
};
struct libusb_config_descriptor {
    int bNumInterfaces;
    const struct libusb_interface *interface;
};
struct libusb_transfer {
    int status, actual_length;
    void *user_data;
    unsigned char *buffer;
};

/* Calls of code that the linker leaves out, since no session comes there. */
int gpg_error(), gpg_error_from_syserror(), npth_attr_destroy(), npth_attr_init(), npth_attr_setdetachstate(),
    npth_create(), npth_setname_np(), libusb_cancel_transfer(), libusb_claim_interface(), libusb_close(),
    libusb_free_config_descriptor(), libusb_free_device_list(), libusb_free_transfer(),
    libusb_get_active_config_descriptor(), libusb_get_bus_number(), libusb_get_device_address(),
    libusb_get_device_descriptor(), libusb_get_device_list(), libusb_handle_events_completed(), libusb_init(),
    libusb_interrupt_transfer(), libusb_open(), libusb_release_interface(), libusb_set_interface_alt_setting();

/* Calls for a device that breaks CCID, or tells of a card that is taken out: this reader does neither. */
#define libusb_alloc_transfer(packets) NULL
#define libusb_fill_interrupt_transfer(...) abort()
#define libusb_submit_transfer(transfer) (abort(), (transfer)->status)
#define libusb_control_transfer(...) LIBUSB_ERROR_IO
#define libusb_clear_halt(device, endpoint) ((void)(device), (void)(endpoint))
#define libusb_error_name(error) ((error) ? "an error" : "none")

int libusb_bulk_transfer(libusb_device_handle *device, unsigned char endpoint, unsigned char *message, int limit,
                         int *size, unsigned patience);

#include <ccid-driver.c>

/* The messages of CCID that a session has: the reader's endpoints, and the parts of a header of ten bytes. */
enum { TO_READER = 1, FROM_READER = 0x81, HEADER = 10, SLOT = 5, NUMBER = 6, STATUS = 7, ERROR = 8 };
enum { MUTE = 0xFE, FAILED = 0x40, FIELD_SIZE = 254, MOST_ANSWER = 258 };

static struct ccid_driver_s driver = {
    .ep_bulk_out = TO_READER,
    .ep_bulk_in = FROM_READER,
    .ep_intr = -1,
    .max_ifsd = FIELD_SIZE,
    .auto_voltage = 1,
    .auto_pps = 1,
};
static char power_line[LINE];
static uint8_t reply[LINE];
static size_t reply_size;

/* The reader's message to this one: a card that says nothing is an error of the reader's. */
static void take(const unsigned char *message, size_t size)
{
    uint8_t *data = reply + HEADER;
    size_t count = 0;

    memset(reply, 0, HEADER);
    reply[0] = RDR_to_PC_DataBlock;
    reply[NUMBER] = message[NUMBER];
    if (message[0] == PC_to_RDR_IccPowerOn) {
        count = ask(power_line) ? bytes_of(power_line + strlen("atr "), data, LINE - HEADER) : 0;
    } else if (message[0] == PC_to_RDR_XfrBlock) {
        count = exchange_blocks(message + HEADER, size - HEADER, data, LINE - HEADER);
    } else if (message[0] == PC_to_RDR_SetParameters) {
        reply[0] = RDR_to_PC_Parameters;
        count = size - HEADER;
        memcpy(data, message + HEADER, count);
    } else {
        reply[0] = RDR_to_PC_SlotStatus;
    }
    if (count == 0 && reply[0] == RDR_to_PC_DataBlock) {
        reply[STATUS] = FAILED;
        reply[ERROR] = MUTE;
    }
    set_msg_len(reply, (unsigned)count);
    reply_size = HEADER + count;
}

/* The reader's USB: it takes a message whole, and gives as many bytes of the reply as the driver has room for. */
int libusb_bulk_transfer(libusb_device_handle *device, unsigned char endpoint, unsigned char *message, int limit,
                         int *size, unsigned patience)
{
    (void)device;
    (void)patience;
    if (endpoint == TO_READER) {
        take(message, (size_t)limit);
        *size = limit;
        return 0;
    }
    if (reply_size > (size_t)limit)
        return LIBUSB_ERROR_OVERFLOW;
    memcpy(message, reply, reply_size);
    *size = (int)reply_size;
    return 0;
}

static bool power_on(char line[LINE])
{
    unsigned char atr[33];
    size_t size;

    strcpy(power_line, line);
    int outcome = ccid_get_atr(&driver, atr, sizeof atr, &size);
    strcpy(line, power_line);
    return outcome == 0;
}

/* Carries a command out, with the buffer of scd/apdu.c. */
static void transmit(const uint8_t *command, size_t count)
{
    uint8_t answer[MOST_ANSWER];
    size_t size = 0;
    int outcome = ccid_transceive(&driver, command, count, answer, sizeof answer, &size);

    print_answer(outcome == 0, answer, size);
}

int main(int count, char **words)
{
    if (!start_card(count, words))
        return 2;
    serve(power_on, transmit);
    return 0;
}
