/* There are no threads: what one would run is run at once. */
#include <stddef.h>
typedef int pthread_t;
int pthread_create(pthread_t *thread, const void *attributes, void *(*run)(void *), void *argument);
int pthread_join(pthread_t thread, void **answer);
