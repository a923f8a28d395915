  alt_status {operation}({parameters}) {
    Shown shown(*this);
    return shown.status = {name}_BASE::{operation}({names});
  }
