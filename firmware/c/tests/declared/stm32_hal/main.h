/* What port/stm32_hal.c takes from ST's HAL and from CMSIS, declared for the tests by the family's macro. These are no files
 * of ST: names and places are as its manuals have them, and nothing more is here. */
#ifndef MAIN_H
#define MAIN_H

#include <stdint.h>

#if !defined(STM32G4) && !defined(STM32L4) && !defined(STM32G0) && !defined(STM32WB) && !defined(STM32F4) && \
    !defined(STM32F1)
#define STM32G4
#endif

typedef enum { HAL_OK, HAL_ERROR, HAL_BUSY, HAL_TIMEOUT } HAL_StatusTypeDef;

typedef struct {
    volatile uint32_t ACR, SR, CR, ECCR, ECC2R, OPTR, OPTCR;
} FLASH_TypeDef;
extern FLASH_TypeDef flash_registers;
#define FLASH (&flash_registers)

#define FLASH_BASE 0x08000000u
#ifdef STM32F1
#define FLASHSIZE_BASE 0x1ffff7e0u
#define FLASH_PAGE_SIZE 0x400u
#else
extern uint32_t flash_bytes;
#define FLASH_SIZE flash_bytes
#endif
#if defined(STM32WB)
#define FLASH_PAGE_SIZE 0x1000u
#elif !defined(STM32F1) && !defined(STM32F4)
#define FLASH_PAGE_SIZE 0x800u
#endif

/* Of parts with two banks. */
#if defined(STM32G4)
#define FLASH_OPTR_DBANK (1u << 22)
#elif defined(STM32L4)
#define FLASH_OPTR_DUALBANK (1u << 21)
#elif defined(STM32G0)
#define FLASH_OPTR_nSWAP_BANK (1u << 20)
#define FLASH_OPTR_DUAL_BANK (1u << 21)
#elif defined(STM32F4)
#define FLASH_OPTCR_DB1M (1u << 30)
#endif
#if defined(STM32G4) || defined(STM32L4)
#define SYSCFG_MEMRMP_FB_MODE (1u << 8)
#elif defined(STM32F4)
#define SYSCFG_MEMRMP_UFB_MODE (1u << 8)
#endif
typedef struct {
    volatile uint32_t MEMRMP;
} SYSCFG_TypeDef;
extern SYSCFG_TypeDef syscfg_registers;
extern int syscfg_is_on;
#define SYSCFG (&syscfg_registers)
#define __HAL_RCC_SYSCFG_IS_CLK_ENABLED() (syscfg_is_on)
#define __HAL_RCC_SYSCFG_CLK_ENABLE() (syscfg_is_on = 1)
#define __HAL_RCC_SYSCFG_CLK_DISABLE() (syscfg_is_on = 0)

#ifndef STM32F1
#ifdef STM32G0
#define FLASH_ACR_ICEN (1u << 9)
#define FLASH_ACR_ICRST (1u << 11)
#else
#define FLASH_ACR_DCEN (1u << 10)
#define FLASH_ACR_DCRST (1u << 12)
#endif
#endif

#if !defined(STM32F1) && !defined(STM32F4)
#define FLASH_ECCR_ECCC (1u << 30)
#define FLASH_ECCR_ECCD (1u << 31)
#ifdef STM32G4
#define FLASH_ECCR_ADDR_ECC 0x7ffffu
#define FLASH_ECCR_BK_ECC (1u << 21)
#define FLASH_ECCR_SYSF_ECC (1u << 22)
#define FLASH_ECCR_ECCC2 (1u << 28)
#define FLASH_ECCR_ECCD2 (1u << 29)
#else
#define FLASH_ECCR_SYSF_ECC (1u << 20)
#ifdef STM32L4
#define FLASH_ECCR_ADDR_ECC 0x7ffffu
#define FLASH_ECCR_BK_ECC (1u << 19)
#else
#define FLASH_ECCR_ADDR_ECC 0x1ffffu
#endif
#endif
#endif

enum {
#ifdef STM32F1
    FLASH_TYPEPROGRAM_HALFWORD = 1,
    FLASH_TYPEERASE_PAGES = 0
#elif defined(STM32F4)
    FLASH_TYPEPROGRAM_BYTE = 0,
    FLASH_TYPEPROGRAM_HALFWORD = 1,
    FLASH_TYPEPROGRAM_WORD = 2,
    FLASH_TYPEERASE_SECTORS = 0,
    FLASH_VOLTAGE_RANGE_1 = 0,
    FLASH_VOLTAGE_RANGE_2 = 1,
    FLASH_VOLTAGE_RANGE_3 = 2
#else
    FLASH_TYPEPROGRAM_DOUBLEWORD = 0,
    FLASH_TYPEERASE_PAGES = 0
#endif
};
#if defined(STM32G4) || defined(STM32L4) || defined(STM32G0)
#define FLASH_BANK_1 4u
#define FLASH_BANK_2 32768u
#endif

typedef struct {
    uint32_t TypeErase;
#ifdef STM32F1
    uint32_t Banks, PageAddress, NbPages;
#elif defined(STM32F4)
    uint32_t Banks, Sector, NbSectors, VoltageRange;
#elif defined(STM32WB)
    uint32_t Page, NbPages;
#else
    uint32_t Banks, Page, NbPages;
#endif
} FLASH_EraseInitTypeDef;

#ifdef __cplusplus
extern "C" {
#endif
HAL_StatusTypeDef HAL_FLASH_Unlock(void);
HAL_StatusTypeDef HAL_FLASH_Lock(void);
HAL_StatusTypeDef HAL_FLASH_Program(uint32_t TypeProgram, uint32_t Address, uint64_t Data);
HAL_StatusTypeDef HAL_FLASHEx_Erase(FLASH_EraseInitTypeDef *pEraseInit, uint32_t *PageError);
#ifdef __cplusplus
}
#endif

#endif
