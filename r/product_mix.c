/* A door from R's .Call to the library: list(status, reply) of words and a text, which are strings of one element each. */
#include <R.h>
#include <Rinternals.h>
#include <R_ext/Rdynload.h>
#include <product_mix.h>
#include <string.h>

/* The UTF-8 bytes of a string, on R's heap until the call ends. */
static const char *bytes_of(SEXP value, const char *name) {
    if (!isString(value) || LENGTH(value) != 1 || STRING_ELT(value, 0) == NA_STRING) {
        error("%s is to be one string", name);
    }
    return translateCharUTF8(STRING_ELT(value, 0));
}

static SEXP run(SEXP words_value, SEXP text_value) {
    const char *words = bytes_of(words_value, "words"), *text = bytes_of(text_value, "text");
    size_t length = strlen(text), room = 4096 + 20 * length, needed = 0;
    uint32_t status;
    char *out;
    for (;;) {
        out = R_alloc(room, 1);
        status = product_mix_run((const uint8_t *)words, strlen(words), (const uint8_t *)text, length, (uint8_t *)out,
                                 room, &needed);
        if (status == PRODUCT_MIX_NO_MEMORY) {
            error("memory was wanting");
        }
        if (needed <= room) {
            break;
        }
        room = needed;
    }
    const char *names[] = {"status", "reply", ""};
    SEXP result = PROTECT(mkNamed(VECSXP, names));
    SET_VECTOR_ELT(result, 0, ScalarInteger((int)status));
    SET_VECTOR_ELT(result, 1, ScalarString(mkCharLenCE(out, (int)needed, CE_UTF8)));
    UNPROTECT(1);
    return result;
}

static const R_CallMethodDef calls[] = {{"product_mix_run", (DL_FUNC)&run, 2}, {NULL, NULL, 0}};

void R_init_product_mix(DllInfo *dll) {
    R_registerRoutines(dll, NULL, calls, NULL, NULL);
    R_useDynamicSymbols(dll, FALSE);
}
