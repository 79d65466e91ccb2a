/* What ck's `configure` would find out: nothing of a machine's own, memory that may reorder, and no floating point. */
#ifndef CK_MD_H
#define CK_MD_H

#define CK_MD_CACHELINE 64
#define CK_MD_PAGESIZE 4096
#define CK_MD_RTM_DISABLE
#define CK_MD_LSE_DISABLE
#define CK_MD_POINTER_PACK_DISABLE
#define CK_MD_SSE_DISABLE
#define CK_MD_VMA_BITS 32
#define CK_MD_RMO
#define CK_PR_DISABLE_DOUBLE

#endif
