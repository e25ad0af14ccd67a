/* A module for Node: load(file, block, out), of buffers, returns [status, fits, length of the block, of the text]. */
#include "dotenvy.h"
#include <node_api.h>

static napi_value load(napi_env env, napi_callback_info info) {
    napi_value given[3], numbers, number;
    size_t count = 3, length[3];
    void *bytes[3]; /* Node gives NULL for an empty buffer */
    struct dotenvy_answer a;
    napi_get_cb_info(env, info, &count, given, NULL, NULL);
    for (int i = 0; i < 3; i++)
        if (napi_get_buffer_info(env, given[i], &bytes[i], &length[i]) != napi_ok)
            return napi_throw_type_error(env, NULL, "load takes three buffers"), NULL;
    dotenvy_load(bytes[0], length[0], bytes[1], length[1], 0, &a, bytes[2], length[2]);
    const double told[] = {a.status, a.fits, a.block_len, a.text_len};
    napi_create_array(env, &numbers);
    for (int i = 0; i < 4; i++)
        if (napi_create_double(env, told[i], &number) == napi_ok) napi_set_element(env, numbers, i, number);
    return numbers;
}

NAPI_MODULE_INIT() {
    napi_create_function(env, "load", NAPI_AUTO_LENGTH, load, NULL, &exports);
    return exports;
}
