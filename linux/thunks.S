/* The thunks to which libpartmem_linux.a jumps, for a kernel that has none. Such a kernel returns and jumps without a thunk. */
#include <linux/linkage.h>

#ifdef OWN_RETURN_THUNK
SYM_FUNC_START(__x86_return_thunk)
	ret
	int3
SYM_FUNC_END(__x86_return_thunk)
#endif

#ifdef OWN_INDIRECT_THUNK
SYM_FUNC_START(__x86_indirect_thunk_r11)
	jmp *%r11
	int3
SYM_FUNC_END(__x86_indirect_thunk_r11)
#endif
