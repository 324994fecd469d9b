/* The plain C of store.c behind the library's own declarations: a record goes in by value and comes back by value. What this costs in time, it costs any
 * library that is called so. In a file that includes this first, the functions of include/tovridsa.h are those of value.c. */
#ifndef VALUE_H
#define VALUE_H

#define tovridsa_open_server by_value_open_server
#define tovridsa_transfer by_value_transfer
#define tovridsa_share by_value_share
#define tovridsa_serve by_value_serve
#define tovridsa_open_desk by_value_open_desk
#define tovridsa_begin_read by_value_begin_read
#define tovridsa_begin_write by_value_begin_write
#define tovridsa_ask by_value_ask
#define tovridsa_hear by_value_hear
#define tovridsa_result by_value_result
#define tovridsa_margin by_value_margin
#define tovridsa_drop by_value_drop

#include "../include/tovridsa.h"

#endif
