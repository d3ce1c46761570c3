/* The bits of the registers that the driver uses, by the manual's names. */
#ifndef CAN_BITS_H
#define CAN_BITS_H

#define CAN_MCR_INRQ 0x00000001u
#define CAN_MCR_SLEEP 0x00000002u
#define CAN_MCR_TXFP 0x00000004u
#define CAN_MCR_TTCM 0x00000080u

#define CAN_MSR_INAK 0x00000001u
#define CAN_MSR_ERRI 0x00000004u

#define CAN_TSR_RQCP(mailbox) (0x00000001u << 8 * (mailbox))
#define CAN_TSR_TXOK(mailbox) (0x00000002u << 8 * (mailbox))
#define CAN_TSR_ABRQ(mailbox) (0x00000080u << 8 * (mailbox))
#define CAN_TSR_CODE(tsr) ((tsr) >> 24 & 3u)
#define CAN_TSR_TME 0x1C000000u /* any of the three mailboxes is empty */

#define CAN_RFR_FMP 0x00000003u
#define CAN_RFR_FULL 0x00000008u
#define CAN_RFR_FOVR 0x00000010u
#define CAN_RFR_RFOM 0x00000020u

#define CAN_IER_TMEIE 0x00000001u
#define CAN_IER_FMPIE0 0x00000002u
#define CAN_IER_FOVIE0 0x00000008u
#define CAN_IER_FMPIE1 0x00000010u
#define CAN_IER_FOVIE1 0x00000040u
#define CAN_IER_EWGIE 0x00000100u
#define CAN_IER_EPVIE 0x00000200u
#define CAN_IER_BOFIE 0x00000400u
#define CAN_IER_ERRIE 0x00008000u

#define CAN_ESR_EPVF 0x00000002u
#define CAN_ESR_BOFF 0x00000004u
#define CAN_ESR_TEC(esr) ((esr) >> 16 & 0xFFu)

#define CAN_TI_TXRQ 0x00000001u
#define CAN_RI_RTR 0x00000002u /* in TI too */
#define CAN_RI_IDE 0x00000004u

#define CAN_FMR_FINIT 0x00000001u

#endif
