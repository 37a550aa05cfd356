;;; rgatext.el --- A room of an rgatext server as a buffer  -*- lexical-binding: t -*-

;;; Commentary:

;; By clients/stdio: M-x rgatext RET ws://127.0.0.1:7878 RET notes RET.

;;; Code:

(require 'json)

(defvar rgatext-node '("node" "--experimental-websocket" "--no-warnings") "How Node is started.")

(defconst rgatext--program
  (expand-file-name "../stdio/rgatext-stdio.mjs" (file-name-directory (or load-file-name buffer-file-name))))

(defvar rgatext--has-typed nil "Whether the last command in a room changed its text.")

(defvar-local rgatext--process nil "The program between the buffer and its room.")
(defvar-local rgatext--held "" "The beginning of a line of the program.")
(defvar-local rgatext--answer nil "What was answered since something was asked.")
(defvar-local rgatext--told '(:state "joining" :words "joining" :heard 0) "How the session stands, as the program told it.")
(defvar-local rgatext--over nil "What the program told at its end, where it carries no changes any more.")
(defvar-local rgatext--sent 0 "How many times the text was sent.")
(defvar-local rgatext--seen nil "The tick of the text that the program knows; nil while that changes.")
(defvar-local rgatext--has-news nil "Whether there is something to take.")
(defvar-local rgatext--is-due nil "Whether `rgatext--step' is to come.")

(defun rgatext--wait (seconds does)
  "Call DOES until it gives something or the program is over.
Nothing is typed meanwhile. Where that takes more SECONDS it is said, and C-g
gives the program up."
  (let ((late (+ (float-time) seconds)) (inhibit-quit t) is-told)
    (while (not (or rgatext--over (with-local-quit (funcall does))))
      (when (and is-told quit-flag) (rgatext--give-up))
      (setq quit-flag nil)
      (when (> (float-time) late)
        (setq is-told t)
        (let (set-message-function) ; (that puts it beside what a minibuffer asks, which isn't shown before the wait is over)
          (message "rgatext: waiting for its program; C-g gives it up"))))
    (when is-told (message nil))))

(defun rgatext--send (&rest request)
  "Send a REQUEST, a list of keys and values."
  (let ((rest (concat (json-serialize request) "\n")))
    (rgatext--wait
     2 (lambda ()
         (with-timeout (0.1) ; (Emacs keeps what wasn't written by then, and writes it first the next time)
           (ignore-errors (process-send-string rgatext--process (prog1 rest (setq rest "")))) ; (that it has ended is told soon)
           t)))))

(defun rgatext--receive (process output)
  "Hear each whole line of the OUTPUT of a PROCESS."
  (when (buffer-live-p (process-buffer process))
    (with-current-buffer (process-buffer process)
      (let ((lines (split-string (concat rgatext--held output) "\n"))
            (json-object-type 'plist) (json-array-type 'list) (json-null nil) (json-false nil))
        (setq rgatext--held (car (last lines)))
        (dolist (line (butlast lines))
          (rgatext--hear (json-read-from-string line))))))) ; (json-parse-string takes no NUL)

(defun rgatext--hear (told)
  "Do what a line asks that was TOLD."
  (cond ((plist-get told :closed) (rgatext--ends told))
        (rgatext--over)
        ((plist-get told :state) (rgatext--show told))
        ((plist-get told :news)
         (setq rgatext--has-news t)
         (rgatext--keep-in-step))
        ((or (plist-get told :refused) (plist-get told :wrong))
         (message "rgatext: %s" (or (plist-get told :refused) (plist-get told :wrong)))
         (when (plist-get told :wrong) (rgatext--give-up)))
        (t (setq rgatext--answer told))))

(defun rgatext--room ()
  "The buffer of the room: that which an indirect one is made of."
  (or (buffer-base-buffer) (current-buffer)))

(defun rgatext--ask (&rest request)
  "Send a REQUEST and give its answer, or what the program told at its end."
  (unless (buffer-local-value 'rgatext--process (rgatext--room)) (user-error "This is no room"))
  (rgatext--tell)
  (with-current-buffer (rgatext--room)
    (setq rgatext--answer nil)
    (apply #'rgatext--send request)
    (rgatext--wait (+ 2 (/ (or (plist-get request :flush) 0) 1000))
                   (lambda () (accept-process-output rgatext--process 0.1 nil 1) rgatext--answer))
    (or rgatext--answer rgatext--over)))

(defun rgatext--give-up ()
  "Go on without the program, which sends what was written to it, and ends."
  (process-send-eof rgatext--process)
  (rgatext--ends "is still ending"))

(defun rgatext--is-untold ()
  "Whether the text was changed since the program knew it."
  (not (memql rgatext--seen (list nil (buffer-chars-modified-tick)))))

(defun rgatext--tell ()
  "Send the text where it was changed.
What differs is found by the program, by point where letters are alike. What is
no character of a text becomes U+FFFD."
  (let ((caret (1- (point)))
        (inhibit-quit t) ; Emacs takes a hook away that a quit ends
        (inhibit-modification-hooks t)
        (inhibit-read-only t))
    (with-current-buffer (rgatext--room)
      (unless enable-multibyte-characters (set-buffer-multibyte t)) ; places are characters
      (when (rgatext--is-untold)
        (save-match-data
          (save-restriction
            (widen)
            (replace-regexp-in-region "[^\0-\ud7ff\ue000-\U0010ffff]" "\ufffd" 1)
            (setq rgatext--seen (buffer-chars-modified-tick)
                  rgatext--sent (1+ rgatext--sent))
            (rgatext--send :whole (buffer-substring-no-properties 1 (point-max)) :caret caret)))))))

(defun rgatext--command-ends ()
  "Tell what was changed, also in an indirect buffer: that tells nothing itself.
What a macro does, or what is typed ahead, is told together."
  (when (buffer-local-value 'rgatext--process (rgatext--room))
    (setq rgatext--has-typed (with-current-buffer (rgatext--room) (rgatext--is-untold)))
    (unless (or executing-kbd-macro (input-pending-p)) (rgatext--tell))))

(defun rgatext--keep-in-step (&rest _)
  "Tell and take what is new, as soon as nothing else is done."
  (with-current-buffer (rgatext--room)
    (when (and rgatext--process (not rgatext--is-due)) ; (a copy of a room has the hook, too)
      (setq rgatext--is-due t)
      (run-with-timer 0 nil #'rgatext--step (current-buffer)))))

(defun rgatext--step (room)
  "Tell and take what is new in a ROOM, once no command waits for its user.
It may know places by their numbers, as a search and a list of completions do.
That which reads a command's name knows none."
  (cond ((not (buffer-live-p room)))
        ((or this-command isearch-mode
             (> (recursion-depth) (if (eq minibuffer-history-variable 'extended-command-history) 1 0))
             (get-buffer-window "*Completions*" 'visible))
         (run-with-timer 0.1 nil #'rgatext--step room))
        (t (with-current-buffer room
             (setq rgatext--is-due nil)
             (rgatext--tell)
             (when rgatext--has-news
               (setq rgatext--has-news nil)
               (rgatext--play :take))))))

(defun rgatext--play (key)
  "Make the changes that a request by a KEY brings to the room. Gives the answer.
Point and markers stay where they are in the text: what others put in at either
end of the region isn't in it. Elsewhere point goes with the character behind
it, but right after a change with that before it."
  (let* ((inhibit-quit t)
         (room (rgatext--room))
         (answer (rgatext--ask key t))
         (window (or (minibuffer-selected-window) (selected-window))))
    (with-current-buffer (window-buffer window)
      (let* ((caret (window-point window))
             (mark (or (mark t) caret))
             (is-region (or mark-active (eq last-command 'yank)))
             (goes-on (if is-region (< caret mark) (not (or rgatext--has-typed (zerop (buffer-size))))))
             (place (copy-marker caret goes-on))
             (start (copy-marker mark t)))
        (rgatext--make room (plist-get answer :changes))
        (set-window-point window place)
        (when (< mark caret) (set-marker (mark-marker) start))))
    answer))

(defun rgatext--make (room changes)
  "Make CHANGES of a ROOM that its program knows."
  (with-current-buffer room
    (setq rgatext--seen nil)
    (unwind-protect
        (let ((inhibit-read-only t)
              (deactivate-mark nil))
          (save-match-data
            (save-excursion
              (save-restriction
                (widen)
                (pcase-dolist (`(,at ,removed ,text) changes)
                  (goto-char (1+ at))
                  (delete-region (point) (+ (point) removed))
                  (insert text)))))
          (setq rgatext--seen (buffer-chars-modified-tick)
                last-abbrev-text nil)) ; (`unexpand-abbrev' goes by a number)
      (unless rgatext--seen (rgatext--give-up))) ; (another's hook ended in an error)
    (rgatext--show rgatext--told)))

(defun rgatext--turn (key times)
  "Ask KEY so many TIMES, `:undo' or `:redo', and go where it changes something."
  (barf-if-buffer-read-only)
  (dotimes (_ times)
    (let ((caret (plist-get (rgatext--play key) :caret)))
      (when caret (goto-char (1+ caret))))))

(defun rgatext-undo (times)
  "Undo one's own last step in the room, so many TIMES."
  (interactive "p")
  (rgatext--turn :undo times))

(defun rgatext-redo (times)
  "Do one's own step again that was undone last, so many TIMES."
  (interactive "p")
  (rgatext--turn :redo times))

(pcase-dolist
    (`(,name ,documentation . ,request)
     '((rgatext-flush "Wait until the room has all that was done here, or say what is wrong." :flush 5000)
       (rgatext-unsent "Show what was done here and the room isn't known to have." :unsent t)
       (rgatext-other "Show the text of the room, where it is another one." :other t)
       (rgatext-take-theirs "Take the text of the room in place of what is shown." :choose "theirs")
       (rgatext-put-mine "Put what is shown into the room in place of its text." :choose "mine")))
  (defalias name
    (lambda () (interactive) (message "%s" (plist-get (apply #'rgatext--ask request) :words)))
    documentation))

(defun rgatext--is-ahead ()
  "Whether something was done here that the room isn't told to have."
  (or (plist-get rgatext--told :ahead) (< (plist-get rgatext--told :heard) rgatext--sent) (rgatext--is-untold)))

(defun rgatext--is-fixed ()
  "Whether nothing may be typed, as the session stands."
  (and (member (plist-get rgatext--told :state) '("refused" "closed")) t))

(defun rgatext--show (told)
  "Show how the session stands, as TOLD, in the mode line and by the flags.
Where it was made read-only by its user it stays so until the session turns."
  (let ((was-fixed (rgatext--is-fixed)))
    (setq rgatext--told told)
    (unless (eq was-fixed (rgatext--is-fixed))
      (dolist (it (buffer-list))
        (when (memq (current-buffer) (list it (buffer-base-buffer it)))
          (with-current-buffer it (setq buffer-read-only (not was-fixed)))))))
  (restore-buffer-modified-p (rgatext--is-ahead))
  (force-mode-line-update t))

(defun rgatext--ends (last)
  "Nobody carries changes any more. LAST is what the program told, or how it ended."
  (setq rgatext--over
        (if (stringp last) (list :words (concat "what the room doesn't have isn't known: its program " last)) last))
  (rgatext--show (list :state "closed" :words "closed: its program has ended"
                       :ahead (if (stringp last) (rgatext--is-ahead) (not (plist-get last :sent)))
                       :heard (or (plist-get rgatext--over :heard) rgatext--sent))))

(defun rgatext--ended (process _)
  "The program of a PROCESS has ended."
  (when (and (buffer-live-p (process-buffer process)) (not (process-live-p process)))
    (with-current-buffer (process-buffer process)
      (unless (plist-get rgatext--over :closed)
        (rgatext--ends "has ended without a word")))))

(defun rgatext--may-leave ()
  "Whether the room has all, or the user leaves it all the same."
  (or (null rgatext--process) (buffer-base-buffer)
      (progn
        (rgatext--ask :flush 2000)
        (not (rgatext--is-ahead)))
      (yes-or-no-p (format "Some text of %s isn't in the room. Leave it? " (buffer-name)))))

(defun rgatext--may-leave-all ()
  "Whether Emacs may end."
  (seq-every-p (lambda (it) (with-current-buffer it (rgatext--may-leave))) (buffer-list)))

(define-minor-mode rgatext-mode
  "The buffer is a room of an rgatext server. `rgatext' opens one."
  :lighter (:eval (concat " " (plist-get (buffer-local-value 'rgatext--told (rgatext--room)) :words)))
  :keymap '(([remap undo] . rgatext-undo) ([remap undo-only] . rgatext-undo) ([remap undo-redo] . rgatext-redo)
            ([remap save-buffer] . rgatext-flush))
  (add-hook 'after-change-functions #'rgatext--keep-in-step nil t)
  (add-hook 'kill-buffer-query-functions #'rgatext--may-leave nil t))

(defun rgatext--is-copied ()
  "A copy of a room is an ordinary buffer, and what was started for it ends."
  (when rgatext--process
    (let ((copy (get-buffer-process (current-buffer))))
      (when copy
        (set-process-buffer copy nil)
        (process-send-eof copy)))
    (setq rgatext--process nil
          rgatext--seen nil
          rgatext-mode nil
          buffer-undo-list nil)))

;; They stay where the major mode is changed.
(dolist (it '(rgatext-mode rgatext--process rgatext--held rgatext--answer rgatext--told rgatext--over rgatext--sent
              rgatext--seen rgatext--has-news rgatext--is-due))
  (put it 'permanent-local t))
(dolist (it '(rgatext--keep-in-step rgatext--may-leave))
  (put it 'permanent-local-hook t))
(add-hook 'post-command-hook #'rgatext--command-ends)
(add-hook 'clone-buffer-hook #'rgatext--is-copied)
(add-hook 'kill-emacs-query-functions #'rgatext--may-leave-all)

;;;###autoload
(defun rgatext (address room)
  "Open a ROOM of the server at an ADDRESS in a buffer."
  (interactive "sServer: \nsRoom: ")
  (switch-to-buffer (generate-new-buffer (concat address "/" room)))
  (setq buffer-undo-list t
        rgatext--seen (buffer-chars-modified-tick)
        rgatext--process
        (make-process :name "rgatext" :buffer (current-buffer) :noquery t :connection-type 'pipe :coding 'utf-8-unix
                      :command `(,@rgatext-node ,rgatext--program ,address ,room "characters")
                      :filter #'rgatext--receive :sentinel #'rgatext--ended
                      :stderr (get-buffer-create "*rgatext*")))
  (rgatext-mode))

(provide 'rgatext)
;;; rgatext.el ends here
