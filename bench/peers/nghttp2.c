/* nghttp2 FILE PIECE BODY [SENT]: feeds a server's session the octets of a client, in pieces, and answers each
 * request with BODY octets once it has ended. What it sends is written to the file SENT, where one is named.
 * For bench/peers/run.py and tests/floods.py. */
#include <nghttp2/nghttp2.h>
#include <stdio.h>
#include <stdlib.h>
#include <string.h>

static size_t sent;
static FILE *sent_file;
static int body_length;

/* The source's number is how many octets of the body are left. */
static ssize_t read_body(nghttp2_session *session, int32_t stream, uint8_t *buf, size_t length, uint32_t *flags,
                         nghttp2_data_source *source, void *data) {
  (void)session; (void)stream; (void)data;
  size_t count = (size_t)source->fd < length ? (size_t)source->fd : length;
  memset(buf, 'x', count);
  source->fd -= (int)count;
  if (source->fd == 0) *flags |= NGHTTP2_DATA_FLAG_EOF;
  return (ssize_t)count;
}

static int on_frame(nghttp2_session *session, const nghttp2_frame *frame, void *data) {
  (void)data;
  int ends = frame->hd.flags & NGHTTP2_FLAG_END_STREAM;
  if ((frame->hd.type == NGHTTP2_HEADERS || frame->hd.type == NGHTTP2_DATA) && ends) {
    nghttp2_nv status = {(uint8_t *)":status", (uint8_t *)"200", 7, 3, NGHTTP2_NV_FLAG_NONE};
    nghttp2_data_provider body = {{body_length}, read_body};
    return nghttp2_submit_response(session, frame->hd.stream_id, &status, 1, &body);
  }
  return 0;
}

static void drain(nghttp2_session *session) {
  const uint8_t *octets;
  ssize_t count;
  while ((count = nghttp2_session_mem_send(session, &octets)) > 0) {
    sent += (size_t)count;
    if (sent_file) fwrite(octets, 1, (size_t)count, sent_file);
  }
}

static int run_session(const uint8_t *octets, size_t length, size_t piece) {
  nghttp2_session_callbacks *callbacks;
  nghttp2_session *session;
  nghttp2_option *option;
  nghttp2_settings_entry limits = {NGHTTP2_SETTINGS_MAX_CONCURRENT_STREAMS, 1000};
  nghttp2_session_callbacks_new(&callbacks);
  nghttp2_session_callbacks_set_on_frame_recv_callback(callbacks, on_frame);
  nghttp2_option_new(&option);
  nghttp2_option_set_max_outbound_ack(option, 1000000);
  nghttp2_session_server_new2(&session, callbacks, NULL, option);
  nghttp2_submit_settings(session, NGHTTP2_FLAG_NONE, &limits, 1);
  for (size_t at = 0; at < length; at += piece) {
    size_t next = length - at < piece ? length - at : piece;
    int taken = nghttp2_session_mem_recv(session, octets + at, next) == (ssize_t)next;
    drain(session);
    if (!taken) {
      fprintf(stderr, "nghttp2 ends the connection\n");
      return 1;
    }
  }
  int reads = nghttp2_session_want_read(session);
  nghttp2_session_del(session);
  nghttp2_option_del(option);
  nghttp2_session_callbacks_del(callbacks);
  printf("%zu octets, answered by %zu%s\n", length, sent, reads ? "" : ", ended");
  return reads ? 0 : 1;
}

int main(int count, char **words) {
  if (count < 4) return 2;
  FILE *file = fopen(words[1], "rb");
  if (!file) return 2;
  fseek(file, 0, SEEK_END);
  size_t length = (size_t)ftell(file);
  rewind(file);
  uint8_t *octets = malloc(length + 1);
  if (!octets || fread(octets, 1, length, file) != length) return 2;
  size_t piece = strtoul(words[2], NULL, 10);
  body_length = atoi(words[3]);
  if (count > 4) sent_file = fopen(words[4], "wb");
  int status = run_session(octets, length, piece);
  if (sent_file) fclose(sent_file);
  return status;
}
