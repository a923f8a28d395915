// The port type {port_type} with the queue of libtp_port.a. Written by tools/titan --port {port_type} {file}.
// Nothing in this file is proved. The functions of tp_port.h that it calls are.
#ifndef {name}_HH
#define {name}_HH

#include "{file}"
#include <tp_port.h>

namespace {module} {

class {name} : public {name}_BASE {
  tp_port queue;       // each message is the address of one of Titan's items
  uint64_t arrivals;
  boolean is_stopping; // Titan empties a port that it has stopped, and this one doesn't

  static msg_queue_item_base *item_of(const tp_answer& answer) {
    return reinterpret_cast<msg_queue_item_base *>(static_cast<uintptr_t>(answer.message));
  }

  // While this is there, the top message alone is in Titan's queue. What Titan takes out there is taken out here.
  struct Shown {
    {name}& port;
    alt_status status;
    explicit Shown({name}& of) : port(of), status(ALT_NO) {
      const tp_answer top = tp_port_check(&port.queue, false, 0, true);
      if (top.outcome == TP_NOTHING) return;
      port.msg_queue_head = port.msg_queue_tail = item_of(top);
      port.msg_queue_head->next_item = NULL;
    }
    ~Shown() {
      if (port.msg_queue_head == NULL) tp_port_trigger(&port.queue, false, 0, status == ALT_YES);
      port.msg_queue_head = port.msg_queue_tail = NULL;
    }
  };

  // While this is there, Titan takes messages in. It does so of a started port alone.
  struct Opened {
    {name}& port;
    boolean was_started;
    explicit Opened({name}& of) : port(of), was_started(of.is_started) { port.is_started = TRUE; }
    ~Opened() { port.is_started = was_started; }
  };

  // What Titan has taken in goes to the end of the queue, whatever the status of the port.
  void take_in(component sender) {
    while (msg_queue_head != NULL) {
      msg_queue_item_base *item = msg_queue_head;
      const uint64_t message = reinterpret_cast<uintptr_t>(item);
      if (!tp_port_arrive(&queue, static_cast<uint32_t>(sender), arrivals, message)) {
        {name}_BASE::clear_queue();
        TTCN_error("Port %s: out of memory.", port_name);
      }
      arrivals++;
      msg_queue_head = item->next_item;
    }
    msg_queue_tail = NULL;
  }

  void discard_all() {
    for (uint64_t place = tp_port_len(&queue); place > 0; place--) {
      msg_queue_item_base *item = item_of(tp_port_at(&queue, place - 1));
      item->next_item = msg_queue_head;
      msg_queue_head = item;
      if (msg_queue_tail == NULL) msg_queue_tail = item;
    }
    tp_port_clear(&queue);
    {name}_BASE::clear_queue();
  }

public:
  // A port of Titan is stopped until its component is there.
  {name}(const char *par_port_name = NULL) : {name}_BASE(par_port_name), arrivals(0), is_stopping(FALSE) {
    tp_port_init(&queue);
    tp_port_stop(&queue);
  }
  ~{name}() {
    discard_all();
    tp_port_drop(&queue);
  }

{operations}
protected:
{sendings}
  // For a driver: a message from the system.
  template <class Message>
  void incoming_message(const Message& message) {
    {
      Opened opened(*this);
      {name}_BASE::incoming_message(message);
    }
    take_in(SYSTEM_COMPREF);
  }

  boolean process_message(const char *message_type, Text_Buf& incoming_buf, component sender_component,
    OCTETSTRING& slider) {
    boolean is_known;
    {
      Opened opened(*this);
      is_known = {name}_BASE::process_message(message_type, incoming_buf, sender_component, slider);
    }
    take_in(sender_component);
    return is_known;
  }

  // `start` of a halted or stopped port, also by `all port`. One of a started port comes to clear_queue alone.
  void user_start() {
    discard_all();
    tp_port_start(&queue);
  }

  // `halt` or `stop` of a started port.
  void user_stop() {
    if (is_halted) tp_port_halt(&queue);
    else tp_port_stop(&queue);
    is_stopping = !is_halted;
  }

  // `clear`, `start` of a started or halted port, and the end of each `stop`, by what Titan says of the port.
  void clear_queue() {
    const boolean ends_a_stop = !is_started && !is_halted && (is_stopping || tp_port_status(&queue) == TP_HALTED);
    is_stopping = FALSE;
    if (ends_a_stop) tp_port_stop(&queue);
    else discard_all();
  }
};

}

#endif
