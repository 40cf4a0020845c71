/* What a policy sees of a question: forty bytes, little endian. */
struct context {
    unsigned int anchor_socket, waiter_socket;
    unsigned int anchor_prio, waiter_prio;
    unsigned int anchor_class, waiter_class;
    unsigned int anchor_kind, waiter_kind;
    unsigned int batch, zero;
};
