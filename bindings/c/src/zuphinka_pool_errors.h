/* The errors of the pool: their texts, and the ends of calls and the statuses that they stand for. zuphinka_pool.h explains each. */
#ifndef ZUPHINKA_POOL_ERRORS_H
#define ZUPHINKA_POOL_ERRORS_H

#include "zuphinka_pool.h"

/* The text of each error, and the end of a call or the status of an opening that it stands for, if there is one. */
static const struct {
  const char *text;
  uint32_t end, status;
} errors[] = {
    [ZUPHINKA_POOL_ERROR_NONE] = {.text = "the call is done"},
    [ZUPHINKA_POOL_ERROR_CLOSED] = {.text = "the pool is closed", .end = ZUPHINKA_END_CLOSED},
    [ZUPHINKA_POOL_ERROR_EXHAUSTED] = {.text = "all objects of the pool are lent", .end = ZUPHINKA_END_EXHAUSTED},
    [ZUPHINKA_POOL_ERROR_TIMED_OUT] = {.text = "timed out waiting for an object of the pool", .end = ZUPHINKA_END_TIMED_OUT},
    [ZUPHINKA_POOL_ERROR_MAKE_FAILED] = {.text = "an object could not be made", .end = ZUPHINKA_END_MAKE_FAILED},
    [ZUPHINKA_POOL_ERROR_CREATE_TEST_FAILED] = {.text = "a new object did not pass its test", .end = ZUPHINKA_END_CREATE_TEST_FAILED},
    [ZUPHINKA_POOL_ERROR_ACTIVATE_FAILED] = {.text = "a new object could not be activated", .end = ZUPHINKA_END_ACTIVATE_FAILED},
    [ZUPHINKA_POOL_ERROR_BORROW_TEST_FAILED] = {.text = "a new object did not pass its test before it was lent",
                                                .end = ZUPHINKA_END_BORROW_TEST_FAILED},
    [ZUPHINKA_POOL_ERROR_PASSIVATE_FAILED] = {.text = "a new object could not be passivated", .end = ZUPHINKA_END_PASSIVATE_FAILED},
    [ZUPHINKA_POOL_ERROR_NO_PLACE] = {.text = "the pool has no place for one more object", .end = ZUPHINKA_END_NO_PLACE},
    [ZUPHINKA_POOL_ERROR_GONE] = {.text = "the object was reclaimed from its holder", .end = ZUPHINKA_END_GONE},
    [ZUPHINKA_POOL_ERROR_NOT_LENT] = {.text = "the object is not lent", .end = ZUPHINKA_END_NOT_LENT},
    [ZUPHINKA_POOL_ERROR_IN_USE] = {.text = "objects of the pool are lent"},
    [ZUPHINKA_POOL_ERROR_JOURNAL_FULL] = {.text = "the journal of the pool is full",
                                          .end = ZUPHINKA_END_JOURNAL_FULL,
                                          .status = ZUPHINKA_STATUS_JOURNAL_FULL},
    [ZUPHINKA_POOL_ERROR_STORE_FAILED] = {.text = "a segment of the journal could not be stored"},
    [ZUPHINKA_POOL_ERROR_OUT_OF_MEMORY] = {.text = "out of memory", .end = ZUPHINKA_END_OUT_OF_MEMORY, .status = ZUPHINKA_STATUS_OUT_OF_MEMORY},
    [ZUPHINKA_POOL_ERROR_NO_LOCK] = {.text = "the system has no mutex or condition variable"},
    [ZUPHINKA_POOL_ERROR_MISSING_CALLBACK] = {.text = "a callback is missing"},
    [ZUPHINKA_POOL_ERROR_NOT_TEXT] = {.text = "the settings are not UTF-8", .status = ZUPHINKA_STATUS_NOT_TEXT},
    [ZUPHINKA_POOL_ERROR_NOT_TOML] = {.text = "the settings are not a TOML document", .status = ZUPHINKA_STATUS_NOT_TOML},
    [ZUPHINKA_POOL_ERROR_UNKNOWN_KEY] = {.text = "the settings have an unknown key", .status = ZUPHINKA_STATUS_UNKNOWN_KEY},
    [ZUPHINKA_POOL_ERROR_WRONG_TYPE] = {.text = "a value in the settings has the wrong type", .status = ZUPHINKA_STATUS_WRONG_TYPE},
    [ZUPHINKA_POOL_ERROR_OUT_OF_RANGE] = {.text = "a number in the settings is out of range", .status = ZUPHINKA_STATUS_OUT_OF_RANGE},
    [ZUPHINKA_POOL_ERROR_NULL_POINTER] = {.text = "a pointer is null"},
    [ZUPHINKA_POOL_ERROR_UNKNOWN_JOURNAL] = {.text = "the journal has no such use"},
    [ZUPHINKA_POOL_ERROR_FOREIGN] = {.text = "the object is not one of the pool's"},
    [ZUPHINKA_POOL_ERROR_BUFFER_TOO_SMALL] = {.text = "the text does not fit into the buffer"},
    [ZUPHINKA_POOL_ERROR_UNKNOWN_SIZE] = {.text = "the size of the host's struct is none that the library knows"},
    [ZUPHINKA_POOL_ERROR_STORING] = {.text = "the journal is not cut by the callback that stores a segment of it"},
};

enum { ERRORS = sizeof errors / sizeof *errors };

/* Returns the error of an end or of a status, the other of which is 0; or none. */
static enum zuphinka_pool_error find_error(uint32_t end, uint32_t status) {
  enum zuphinka_pool_error error = (enum zuphinka_pool_error)(ERRORS - 1);
  while (error > ZUPHINKA_POOL_ERROR_NONE && !(end && errors[error].end == end) && !(status && errors[error].status == status)) error--;
  return error;
}

const char *zuphinka_pool_error_text(enum zuphinka_pool_error error) {
  return (unsigned)error < ERRORS ? errors[error].text : "the code is no error";
}

#endif
