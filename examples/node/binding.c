/* The library for Node.js, by Node-API: what voltage.js calls, which also has the compiler's words. A
 * status that is not PMB_OK is thrown as an error, with the status in its text. Arguments of another
 * type count as 0, and as an empty text. */
#include <node_api.h>
#include <stdio.h>
#include <stdlib.h>

#include "pmb.h"

enum { MOST = 2 }; /* arguments of a call */

/* Throws a status. */
static napi_value failed(napi_env env, int32_t status)
{
    char text[32];
    snprintf(text, sizeof text, "pmb: status %ld", (long)status);
    napi_throw_error(env, NULL, text);
    return NULL;
}

/* The text of an argument, for `free`. */
static char *text_of(napi_env env, napi_value given, size_t *length)
{
    char *text;
    *length = 0;
    napi_get_value_string_utf8(env, given, NULL, 0, length);
    text = calloc(*length + 1, 1);
    if (text != NULL) napi_get_value_string_utf8(env, given, text, *length + 1, length);
    return text;
}

/* encode(mode, volts): the code of the voltage that is nearest, under a VOUT_MODE. */
static napi_value encode(napi_env env, napi_callback_info info)
{
    napi_value given[MOST], found = NULL;
    size_t count = MOST, length;
    pmb_format format = {.kind = PMB_VOUT};
    pmb_quantity volts = {0, 0};
    uint32_t mode = 0;
    uint16_t code = 0;
    char *text;
    int32_t status;
    napi_get_cb_info(env, info, &count, given, NULL, NULL);
    napi_get_value_uint32(env, given[0], &mode);
    format.mode = (uint8_t)mode;
    text = text_of(env, given[1], &length);
    status = text == NULL ? PMB_NO_MEMORY : pmb_quantity_parse(text, length, &volts);
    free(text);
    if (status == PMB_OK) status = pmb_encode(&format, volts, &code);
    if (status != PMB_OK) return failed(env, status);
    napi_create_uint32(env, code, &found);
    return found;
}

/* decode(mode, code): the voltage of a code, as a text. */
static napi_value decode(napi_env env, napi_callback_info info)
{
    napi_value given[MOST], found = NULL;
    size_t count = MOST, length = 0;
    pmb_format format = {.kind = PMB_VOUT};
    pmb_quantity volts;
    uint32_t mode = 0, code = 0;
    char text[PMB_MOST_QUANTITY_TEXT + 1];
    int32_t status;
    napi_get_cb_info(env, info, &count, given, NULL, NULL);
    napi_get_value_uint32(env, given[0], &mode);
    napi_get_value_uint32(env, given[1], &code);
    format.mode = (uint8_t)mode;
    status = pmb_decode(&format, (uint16_t)code, &volts);
    if (status == PMB_OK) status = pmb_quantity_text(volts, text, sizeof text, &length);
    if (status != PMB_OK) return failed(env, status);
    napi_create_string_utf8(env, text, length, &found);
    return found;
}

/* pec(bytes): the packet error code of a Buffer. */
static napi_value pec(napi_env env, napi_callback_info info)
{
    napi_value given[MOST], found = NULL;
    size_t count = MOST, length = 0;
    void *bytes = given; /* (no byte of it is read where there is no Buffer) */
    napi_get_cb_info(env, info, &count, given, NULL, NULL);
    napi_get_buffer_info(env, given[0], &bytes, &length);
    napi_create_uint32(env, pmb_pec(0, bytes, length), &found);
    return found;
}

/* show(profile, capture): what `pmb show` writes. */
static napi_value show(napi_env env, napi_callback_info info)
{
    napi_value given[MOST], found = NULL;
    size_t count = MOST, lengths[MOST];
    pmb_result told = {.status = PMB_NO_ROOM, .length = 4096};
    char *profile, *capture, *out = NULL;
    napi_get_cb_info(env, info, &count, given, NULL, NULL);
    profile = text_of(env, given[0], &lengths[0]);
    capture = text_of(env, given[1], &lengths[1]);
    /* (a text that is longer than the room is written again) */
    while (told.status == PMB_NO_ROOM) {
        const size_t room = told.length;
        free(out);
        out = malloc(room);
        if (profile == NULL || capture == NULL || out == NULL)
            told.status = PMB_NO_MEMORY;
        else
            pmb_show(profile, lengths[0], capture, lengths[1], out, room, &told);
    }
    if (told.status == PMB_OK)
        napi_create_string_utf8(env, out, told.length, &found);
    else
        failed(env, told.status);
    free(profile);
    free(capture);
    free(out);
    return found;
}

NAPI_MODULE_INIT()
{
    static const napi_property_descriptor calls[] = {
        {"encode", NULL, encode, NULL, NULL, NULL, napi_enumerable, NULL},
        {"decode", NULL, decode, NULL, NULL, NULL, napi_enumerable, NULL},
        {"pec", NULL, pec, NULL, NULL, NULL, napi_enumerable, NULL},
        {"show", NULL, show, NULL, NULL, NULL, napi_enumerable, NULL},
    };
    napi_define_properties(env, exports, sizeof calls / sizeof *calls, calls);
    return exports;
}
