/* The program route: its work is the crate `route`. This line hands on its exit status. */
int duchrelin_route_program(void);

int main(void) { return duchrelin_route_program(); }
