/* Scene Share, for editors written in C. */
#ifndef SCENE_SHARE_H
#define SCENE_SHARE_H

#include <stddef.h>
#include <stdint.h>

#ifdef __cplusplus
extern "C" {
#endif

/*
 * Which message the words are in a group of `sites` sites:
 *
 *   1  an edit
 *   2  a report
 *   0  neither: the words are no message, or `sites` is not 2 to 8
 *
 * `words` points to `count` words, which are read and never written. It is not
 * NULL and is aligned as a uint32_t is, also where `count` is 0.
 */
uint32_t scene_share_message_kind(const uint32_t *words, size_t count, uint32_t sites);

#ifdef __cplusplus
}
#endif

#endif
