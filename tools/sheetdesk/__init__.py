"""What tools/sheets does: text forms, sheets and pages of the trial desk."""
