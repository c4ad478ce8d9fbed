/*
 * client.c: asks a server on this machine each procedure through the stubs that rpcgen makes of docs/nqnfs.x, and compares every
 * answer with what docs/protocol.md says. tools/interop.py builds it and runs it. It prints a line for each answer that is right, and
 * ends with status 1 at the first one that is not.
 */
#include <arpa/inet.h>
#include <netinet/in.h>
#include <stdio.h>
#include <stdlib.h>
#include <string.h>
#include <sys/socket.h>
#include <unistd.h>

#include "nqnfs.h"

enum { SERVER_PORT = 20560, HOST = 5, INC = 1, MOST_BYTES = 8800 };

static void check(int holds, const char *what) {
    printf("%s: %s\n", what, holds ? "right" : "WRONG");
    if (!holds) {
        exit(1);
    }
}

/* A handle for a version of the program, whose calls come from the port of our host. */
static CLIENT *handle(int port_socket, u_long version) {
    struct sockaddr_in server = {.sin_family = AF_INET, .sin_port = htons(SERVER_PORT)};
    struct timeval again = {1, 0};
    server.sin_addr.s_addr = htonl(INADDR_LOOPBACK);
    CLIENT *client = clntudp_bufcreate(&server, NQ_PROGRAM, version, again, &port_socket, MOST_BYTES, MOST_BYTES);
    if (client == NULL) {
        clnt_pcreateerror("client");
        exit(1);
    }
    return client;
}

static int socket_of_host(void) {
    struct sockaddr_in own = {.sin_family = AF_INET, .sin_port = htons(SERVER_PORT + 1 + HOST)};
    own.sin_addr.s_addr = htonl(INADDR_LOOPBACK);
    int made = socket(AF_INET, SOCK_DGRAM, IPPROTO_UDP);
    if (made < 0 || bind(made, (struct sockaddr *)&own, sizeof own) < 0) {
        perror("the port of the host");
        exit(1);
    }
    return made;
}

static nq_head head = {HOST, INC};
static char name[] = "paper";

static void names_and_attributes(CLIENT *client) {
    nq_lookup_args lookup = {head, {sizeof name - 1, name}};
    nq_lookup_results *found = nq_lookup_1(&lookup, client);
    check(found && found->answer.status == NQ_NOTATTACHED, "LOOKUP before ATTACH");

    nq_void_results *attached = nq_attach_1(&head, client);
    check(attached && attached->inc == INC && attached->answer.status == NQ_OK, "ATTACH");

    found = nq_lookup_1(&lookup, client);
    check(found && found->inc == INC && found->answer.status == NQ_NOENT, "LOOKUP of no file");

    nq_create_args create = {head, 1, {sizeof name - 1, name}, 2};
    nq_create_results *made = nq_create_1(&create, client);
    check(made && made->answer.status == NQ_OK && made->answer.nq_create_answer_u.file == 1, "CREATE");

    made = nq_create_1(&create, client);
    check(made && made->answer.status == NQ_OK && made->answer.nq_create_answer_u.file == 1, "CREATE once more, the same sequence");

    found = nq_lookup_1(&lookup, client);
    nq_found *file = &found->answer.nq_lookup_answer_u.found;
    check(found && found->answer.status == NQ_OK && file->file == 1 && file->blocks == 2, "LOOKUP");

    nq_getattr_args getattr = {head, 1};
    nq_getattr_results *seen = nq_getattr_1(&getattr, client);
    nq_attributes *attributes = &seen->answer.nq_getattr_answer_u.attributes;
    check(seen && seen->answer.status == NQ_OK && attributes->blocks == 2 && attributes->rev == 0, "GETATTR");
}

static void blocks(CLIENT *client) {
    char body[NQ_BLOCK_BYTES];
    memset(body, 0x6b, sizeof body);
    nq_write_args write = {head, 2, 1, 1, 1, 1, NULL, {sizeof body, body}};
    nq_rev_results *written = nq_write_1(&write, client);
    check(written && written->answer.status == NQ_OK && written->answer.nq_rev_answer_u.rev == 1, "WRITE");

    nq_want wish = {NQ_READING, 30};
    nq_read_args read = {head, 1, 1, 1, &wish};
    nq_read_results *served = nq_read_1(&read, client);
    nq_served *block = &served->answer.nq_read_answer_u.served;
    check(served && served->answer.status == NQ_OK && block->rev == 1, "READ");
    check(block->body.nq_body_len == NQ_BLOCK_BYTES && memcmp(block->body.nq_body_val, body, sizeof body) == 0, "the block that was written");
    check(block->grant && block->grant->mode == NQ_READING && block->grant->term == 30 && block->grant->blocks == 2, "its lease");
    nq_tag tag = block->grant->tag;
    check(tag.boot == 1 && tag.number == 1, "the first tag of the first boot");

    nq_read_args beyond = {head, 2, 1, 2, NULL};
    served = nq_read_1(&beyond, client);
    check(served && served->answer.status == NQ_INVAL, "READ of a block that the file does not have");

    nq_getlease_args lease = {head, 1, {NQ_READING, 60}};
    nq_getlease_results *granted = nq_getlease_1(&lease, client);
    nq_grant *grant = granted ? granted->answer.nq_getlease_answer_u.leased.grant : NULL;
    check(grant && grant->term == 60 && grant->tag.number == 2 && grant->since.number == 1, "GETLEASE renews");

    /* VACATED has no reply, so the call ends after the millisecond that it is given. */
    struct timeval soon = {0, 1000};
    nq_row_args row = {head, 1, grant->tag};
    clnt_call(client, NQ_VACATED, (xdrproc_t)xdr_nq_row_args, (char *)&row, (xdrproc_t)xdr_void, NULL, soon);
}

static void lengths(CLIENT *client) {
    nq_resize_args resize = {head, 3, 3, 1, 1};
    nq_rev_results *cut = nq_resize_1(&resize, client);
    check(cut && cut->answer.status == NQ_OK && cut->answer.nq_rev_answer_u.rev == 2, "RESIZE");

    nq_resize_args late = {head, 2, 3, 1, 1};
    cut = nq_resize_1(&late, client);
    check(cut && cut->answer.status == NQ_OLD, "RESIZE of an old sequence");

    nq_remove_args remove = {head, 4, 4, 1};
    nq_void_results *gone = nq_remove_1(&remove, client);
    check(gone && gone->answer.status == NQ_OK, "REMOVE");

    nq_read_args read = {head, 5, 1, 0, NULL};
    nq_read_results *served = nq_read_1(&read, client);
    check(served && served->answer.status == NQ_STALE, "READ of a file that is gone");
}

static void strangers(int port_socket) {
    struct rpc_err fault;
    struct timeval wait = {2, 0};
    CLIENT *other = handle(port_socket, NQ_VERSION + 1);
    clnt_call(other, NQ_NULL, (xdrproc_t)xdr_void, NULL, (xdrproc_t)xdr_void, NULL, wait);
    clnt_geterr(other, &fault);
    check(fault.re_status == RPC_PROGVERSMISMATCH && fault.re_vers.low == 1 && fault.re_vers.high == 1, "another version");
    clnt_destroy(other);
    CLIENT *client = handle(port_socket, NQ_VERSION);
    clnt_call(client, 12, (xdrproc_t)xdr_void, NULL, (xdrproc_t)xdr_void, NULL, wait);
    clnt_geterr(client, &fault);
    check(fault.re_status == RPC_PROCUNAVAIL, "another procedure");
    clnt_call(client, NQ_LOOKUP, (xdrproc_t)xdr_void, NULL, (xdrproc_t)xdr_void, NULL, wait);
    clnt_geterr(client, &fault);
    check(fault.re_status == RPC_CANTDECODEARGS, "arguments that are garbage");
    clnt_destroy(client);
}

int main(void) {
    int port_socket = socket_of_host();
    CLIENT *client = handle(port_socket, NQ_VERSION);
    check(nq_null_1(NULL, client) != NULL, "NULL");
    names_and_attributes(client);
    blocks(client);
    lengths(client);
    clnt_destroy(client);
    strangers(port_socket);
    close(port_socket);
    return 0;
}
