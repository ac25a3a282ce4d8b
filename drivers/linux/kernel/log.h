/* What the driver logs, and faults. A warning or an error is a fault: it fails the run. */
#ifndef KERNEL_LOG_H
#define KERNEL_LOG_H

/* Logs a text of a level from 0 (emergency) to 7 (debug). With KERNEL_LOG in the environment, it is printed. */
void kernel_log(int level, const char *format, ...) __attribute__((format(printf, 2, 0)));
/* The run fails. The first fault is kept, of which the text is copied. */
void kernel_fails(const char *format, ...) __attribute__((format(printf, 1, 2)));

#define pr_fmt(text) text
#define pr_info(...) kernel_log(6, __VA_ARGS__)
#define pr_err(...) kernel_log(3, __VA_ARGS__)
#define dev_info(dev, ...) ((void)(dev), kernel_log(6, __VA_ARGS__))
#define dev_warn(dev, ...) ((void)(dev), kernel_log(4, __VA_ARGS__))
#define dev_err(dev, ...) ((void)(dev), kernel_log(3, __VA_ARGS__))
#define netdev_WARN_ONCE(dev, ...) ((void)(dev), kernel_log(4, __VA_ARGS__))
#define netdev_dbg(dev, ...) ((void)(dev), kernel_log(7, __VA_ARGS__))
#define netif_err(adapter, type, dev, ...) ((void)(dev), kernel_log(3, __VA_ARGS__))
#define netif_warn(adapter, type, dev, ...) ((void)(dev), kernel_log(4, __VA_ARGS__))
#define netif_notice(adapter, type, dev, ...) ((void)(dev), kernel_log(5, __VA_ARGS__))
#define netif_info(adapter, type, dev, ...) ((void)(dev), kernel_log(6, __VA_ARGS__))
#define print_hex_dump(...) ((void)0)
#define net_ratelimit() true
enum { NETIF_MSG_DRV = 1, NETIF_MSG_PROBE = 2, NETIF_MSG_LINK = 4 };
#define netif_msg_init(debug, bits) ((debug) < 0 ? (bits) : (debug))
#define netif_msg_hw(adapter) false
#define netif_msg_tx_done(adapter) false
#define netif_msg_rx_status(adapter) false
#define WARN_ON(wrong) ({ bool warn = (wrong); if (warn) kernel_fails("WARN_ON(%s)", #wrong); warn; })
#define BUG_ON(wrong) do { if (wrong) kernel_fails("BUG_ON(%s)", #wrong); } while (0)
#define BUG() kernel_fails("BUG()")
#endif
