const char *hello(void);
const char *goodbye(void);
/* both are plain ASCII */
