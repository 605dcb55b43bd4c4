/* The proved functions behind calls that do something before: ask what the processor has, or name
 * an answer that the proved code never gives. In the library they have these names, and nobody else
 * sees them (c/tests/test_c_files.py). */
#ifndef PROVED_H
#define PROVED_H

#include "../krbrelay.h"

enum krbrelay_answer krbrelay_proved_sealer_new(struct krbrelay_sealer *handle, int32_t etype,
                                                const uint8_t *key, size_t key_len,
                                                const struct krbrelay_session *session);
enum krbrelay_answer krbrelay_proved_opener_new(struct krbrelay_opener *handle, int32_t etype,
                                                const uint8_t *key, size_t key_len,
                                                const struct krbrelay_expect *expect);
enum krbrelay_answer krbrelay_proved_receiver_new(struct krbrelay_receiver *handle, int32_t etype,
                                                  const uint8_t *key, size_t key_len,
                                                  const struct krbrelay_expect *expect,
                                                  uint64_t expected, uint32_t closed);
enum krbrelay_answer krbrelay_proved_peer_new(struct krbrelay_peer *handle, int32_t etype,
                                              const uint8_t *key, size_t key_len,
                                              const struct krbrelay_session *session,
                                              const struct krbrelay_demand *demand);
enum krbrelay_answer krbrelay_proved_peer_resume(struct krbrelay_peer *handle, int32_t etype,
                                                 const uint8_t *key, size_t key_len,
                                                 const struct krbrelay_session *session,
                                                 const struct krbrelay_demand *demand,
                                                 const uint8_t state[KRBRELAY_PEER_STATE_SIZE]);
enum krbrelay_answer krbrelay_proved_message_header(const uint8_t *frame, size_t len,
                                                    struct krbrelay_header *header);
enum krbrelay_answer krbrelay_proved_history_add(uint8_t history[KRBRELAY_HISTORY_SIZE],
                                                 const uint8_t *frame, size_t len);
enum krbrelay_answer krbrelay_proved_sending_load(struct krbrelay_sending *sending, uint64_t next,
                                                  uint64_t carried, uint64_t at, uint64_t done,
                                                  uint64_t list, uint64_t now);
enum krbrelay_answer krbrelay_proved_sending_sealed(struct krbrelay_sending *sending,
                                                    uint64_t count);
enum krbrelay_answer krbrelay_proved_sending_confirmed(struct krbrelay_sending *sending,
                                                       uint64_t number, uint64_t offset,
                                                       uint64_t now, uint32_t *counts);
enum krbrelay_answer krbrelay_proved_sending_listed(struct krbrelay_sending *sending, uint64_t list,
                                                    uint32_t *other);
enum krbrelay_answer krbrelay_proved_sending_reconnected(struct krbrelay_sending *sending);
enum krbrelay_answer krbrelay_proved_sending_receipt(struct krbrelay_sending *sending,
                                                     const struct krbrelay_receipt *receipt,
                                                     const uint8_t own[KRBRELAY_HISTORY_SIZE],
                                                     uint64_t now, uint32_t *heard);
enum krbrelay_answer krbrelay_proved_sending_serve(struct krbrelay_sending *sending, uint64_t room,
                                                   uint64_t now, struct krbrelay_command *command);
enum krbrelay_answer krbrelay_proved_sending_state(const struct krbrelay_sending *sending,
                                                   uint64_t *under_way, uint64_t *room,
                                                   uint32_t *settled, uint32_t *stands);
enum krbrelay_answer krbrelay_proved_lane_add(struct krbrelay_lane *handle,
                                              const struct krbrelay_stored *row, uint32_t opens,
                                              uint32_t *place);
enum krbrelay_answer krbrelay_proved_lane_listed(struct krbrelay_lane *handle, uint32_t has_list,
                                                 uint64_t list);
enum krbrelay_answer krbrelay_proved_shard_new(struct krbrelay_shard *handle, uint32_t are_outside,
                                               uint32_t put_aside);
enum krbrelay_answer krbrelay_proved_judge(const struct krbrelay_head *head,
                                           const struct krbrelay_opening *opening,
                                           uint32_t *judged);
enum krbrelay_answer krbrelay_proved_answer_name(uint32_t answer, char *name, size_t room,
                                                 size_t *size);
enum krbrelay_answer krbrelay_proved_answer_text(uint32_t answer, char *text, size_t room,
                                                 size_t *size);

#endif
