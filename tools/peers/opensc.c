/* OpenSC's and OpenSSL's side. OpenSC's library has no public header for these two calls, so they are declared here. */
#include "peers.h"

#include <openssl/asn1.h>

/* room for its struct of a command, which is smaller */
union opensc_apdu {
    uint8_t octets[4096];
    void *aligned;
};

int sc_bytes2apdu(void *context, const uint8_t *octets, size_t count, union opensc_apdu *apdu);
int sc_asn1_read_tag(const uint8_t **octets, size_t count, unsigned *class_of, unsigned *tag, size_t *len);

enum { CONSTRUCTED = 0x20 }; /* in a class as it returns it */

int opensc_command(const uint8_t *octets, size_t count)
{
    static union opensc_apdu apdu;
    return sc_bytes2apdu(NULL, octets, count, &apdu) == 0;
}

long opensc_forest(const uint8_t *octets, size_t count)
{
    long objects = 0;
    while (count > 0) {
        const uint8_t *value = octets;
        unsigned class_of = 0, tag = 0;
        size_t len = 0;
        long inside = 0;
        if (sc_asn1_read_tag(&value, count, &class_of, &tag, &len) != 0 || value == NULL) {
            return -1;
        }
        if ((class_of & CONSTRUCTED) != 0 && (inside = opensc_forest(value, len)) < 0) {
            return -1;
        }
        objects += 1 + inside;
        count -= (size_t)(value - octets) + len;
        octets = value + len;
    }
    return objects;
}

long openssl_forest(const uint8_t *octets, size_t count)
{
    long objects = 0;
    while (count > 0) {
        const unsigned char *value = octets;
        long len, inside = 0;
        int tag, class_of, found = ASN1_get_object(&value, &len, &tag, &class_of, (long)count);
        if ((found & 0x80) != 0) {
            return -1;
        }
        if ((found & V_ASN1_CONSTRUCTED) != 0 && (inside = openssl_forest(value, (size_t)len)) < 0) {
            return -1;
        }
        objects += 1 + inside;
        count -= (size_t)(value - octets) + (size_t)len;
        octets = value + len;
    }
    return objects;
}
