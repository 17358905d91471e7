/* For the library as C in a test: whether its host may ask the machine for memory, or hand out room, is said by the test. */
int room_may_have(void);
#define ROOM_MAY_HAVE() room_may_have()
