mails 1100
