<?php
/* Horde's Imap_Client as a client of the server, over a socket: it asks by LIST-EXTENDED.
 *
 * usage: php clients.php PORT    (host/serve/clients calls it)
 *
 * Prints what the client reports, one thing a line. */

spl_autoload_register(function ($name) {
    $file = stream_resolve_include_path(strtr($name, '_\\', '//') . '.php');
    if ($file) {
        require_once $file;
    }
});
if (!class_exists('Horde_Imap_Client_Socket')) {
    exit(3);
}

$client = new Horde_Imap_Client_Socket([
    'hostspec' => '127.0.0.1', 'port' => (int)$argv[1], 'secure' => false, 'username' => 'x', 'password' => 'x', 'timeout' => 20,
]);

function tell($what, $folders)
{
    foreach ($folders as $folder) {
        $attributes = implode(' ', $folder['attributes'] ?? []);
        echo $what, ' ', $folder['mailbox']->utf8, $attributes === '' ? '' : ": $attributes", "\n";
    }
}

/* It takes PREAUTH only where it connects before its first command that needs a login; else it sends LOGIN after it. */
echo 'LIST-EXTENDED ', $client->capability->query('LIST-EXTENDED') ? 'offered' : 'missing', "\n";

$all = Horde_Imap_Client::MBOX_ALL;
$subscribed = Horde_Imap_Client::MBOX_SUBSCRIBED;
$uses = ['attributes' => true, 'special_use' => true, 'children' => true];
tell('folder', $client->listMailboxes('*', $all, $uses));
tell('subscribed', $client->listMailboxes('*', $subscribed, ['attributes' => true]));
tell('top', $client->listMailboxes('%', $subscribed, ['attributes' => true, 'recursivematch' => true]));
tell('of three patterns', $client->listMailboxes(['Cust%', 'Quo"te \\ back', 'Trash (old) {3}'], $all));
$client->subscribeMailbox('Customers/"New" \\', true);
tell('subscribed', $client->listMailboxes('Customers/*', $subscribed));
$client->subscribeMailbox('Customers/"New" \\', false);
tell('subscribed', $client->listMailboxes('Customers/*', $subscribed));
$client->logout();
