/* The functions of the static library (rust/library/src/raw.rs) over a build without proofs (see `build`): there a slice
 * is handed on by the address of its pointer and length. */
#include <stdbool.h>
#include <stddef.h>
#include <stdint.h>

typedef struct {
    const void *bytes;
    size_t length;
} slice;

bool by_address_check(slice *table, uint8_t *number, size_t *value);
bool by_address_split(slice *table, uint16_t part, uint16_t source_cut, uint16_t target_cut, uint16_t new_id, slice *out,
                      uint8_t *number, size_t *value);
bool by_address_join(slice *table, uint16_t part, slice *out, uint8_t *number, size_t *value);
bool by_address_set_target(slice *table, uint16_t part, uint8_t state, slice *content, slice *out, uint8_t *number,
                           size_t *value);
bool by_address_remove_target(slice *table, uint16_t part, slice *out, uint8_t *number, size_t *value);
bool by_address_rewrite(slice *table, uint8_t side, uint16_t id, uint8_t form, slice *out, uint8_t *number,
                        size_t *value);
bool by_address_read_xml(slice *xml, slice *out, uint8_t *number, size_t *value);
bool by_address_write_xml(slice *table, slice *out, uint8_t *number, size_t *value);
bool by_address_sheet(slice *table, slice *out, uint8_t *number, size_t *value);
size_t by_address_job(slice *job, uint8_t *out);

bool xliff_desk_check(const uint8_t *table, size_t length, uint8_t *number, size_t *value) {
    slice lent = {table, length};
    return by_address_check(&lent, number, value);
}

bool xliff_desk_split(const uint8_t *table, size_t length, uint16_t part, uint16_t source_cut, uint16_t target_cut,
                      uint16_t new_id, uint8_t *out, size_t room, uint8_t *number, size_t *value) {
    slice lent = {table, length}, output = {out, room};
    return by_address_split(&lent, part, source_cut, target_cut, new_id, &output, number, value);
}

bool xliff_desk_join(const uint8_t *table, size_t length, uint16_t part, uint8_t *out, size_t room, uint8_t *number,
                     size_t *value) {
    slice lent = {table, length}, output = {out, room};
    return by_address_join(&lent, part, &output, number, value);
}

bool xliff_desk_set_target(const uint8_t *table, size_t length, uint16_t part, uint8_t state, const uint8_t *content,
                           size_t content_length, uint8_t *out, size_t room, uint8_t *number, size_t *value) {
    slice lent = {table, length}, new_content = {content, content_length}, output = {out, room};
    return by_address_set_target(&lent, part, state, &new_content, &output, number, value);
}

bool xliff_desk_remove_target(const uint8_t *table, size_t length, uint16_t part, uint8_t *out, size_t room,
                              uint8_t *number, size_t *value) {
    slice lent = {table, length}, output = {out, room};
    return by_address_remove_target(&lent, part, &output, number, value);
}

bool xliff_desk_rewrite(const uint8_t *table, size_t length, uint8_t side, uint16_t id, uint8_t form, uint8_t *out,
                        size_t room, uint8_t *number, size_t *value) {
    slice lent = {table, length}, output = {out, room};
    return by_address_rewrite(&lent, side, id, form, &output, number, value);
}

size_t xliff_desk_job(const uint8_t *job, size_t length, uint8_t *out) {
    slice lent = {job, length};
    return by_address_job(&lent, out);
}

bool xliff_desk_read_xml(const uint8_t *xml, size_t length, uint8_t *out, size_t room, uint8_t *number, size_t *value) {
    slice lent = {xml, length}, output = {out, room};
    return by_address_read_xml(&lent, &output, number, value);
}

bool xliff_desk_write_xml(const uint8_t *table, size_t length, uint8_t *out, size_t room, uint8_t *number,
                          size_t *value) {
    slice lent = {table, length}, output = {out, room};
    return by_address_write_xml(&lent, &output, number, value);
}

bool xliff_desk_sheet(const uint8_t *table, size_t length, uint8_t *out, size_t room, uint8_t *number, size_t *value) {
    slice lent = {table, length}, output = {out, room};
    return by_address_sheet(&lent, &output, number, value);
}
