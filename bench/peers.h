/* Peers that are run in a process of their own. */
#ifndef PEERS_H
#define PEERS_H

#define PEER_OPENSSL "openssl"

/* What the program does when it is run with a peer's name. */
int peer(const char *name);

#endif
