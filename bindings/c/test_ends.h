/* Tests other ends of a session than bookie_close, and prints the lines of the summary on them. */
void test_ends(char *const command[]);
