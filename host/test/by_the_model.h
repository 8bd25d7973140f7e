/*
 * Included before a host's source: every call of the library becomes the
 * model's, so that what the host prints is what the rules say.
 */
#define otto_reset    reference_reset
#define otto_write    reference_write
#define otto_read     reference_read
#define otto_set_pot  reference_set_pot
#define otto_waiting  reference_waiting
#define otto_frame    reference_frame
#define otto_import   reference_import
#define otto_compress reference_compress
#define otto_expand   reference_expand
