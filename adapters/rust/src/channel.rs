//! A channel and its calls.

use crate::{
    confirm::PublisherConfirm,
    connection::Closer,
    consumer::Consumer,
    error::{ErrorKind, Result},
    message::{BasicGetMessage, BasicReturnMessage},
    methods::{self, Method},
    options::*,
    protocol::BasicProperties,
    shared::Shared,
    state::Reply,
    status::ChannelStatus,
    types::{ChannelId, ConsumerCount, DeliveryTag, FieldTable, MessageCount, ReplyCode, ShortString},
};
use std::{
    borrow::Borrow,
    fmt,
    future::{poll_fn, Future},
    pin::Pin,
    sync::Arc,
    task::{Context, Poll},
};

/// The kind of an exchange.
#[derive(Clone, Debug, Default, PartialEq, Eq)]
pub enum ExchangeKind {
    /// One of the broker's own.
    Custom(String),
    /// To the queues that are bound by the message's key.
    #[default]
    Direct,
    /// To all queues that are bound.
    Fanout,
    /// By the message's headers.
    Headers,
    /// By patterns of keys.
    Topic,
}

impl ExchangeKind {
    fn kind(&self) -> &str {
        match self {
            ExchangeKind::Custom(kind) => kind,
            ExchangeKind::Direct => "direct",
            ExchangeKind::Fanout => "fanout",
            ExchangeKind::Headers => "headers",
            ExchangeKind::Topic => "topic",
        }
    }
}

/// A declared queue.
#[derive(Clone, Debug)]
pub struct Queue {
    name: ShortString,
    message_count: MessageCount,
    consumer_count: ConsumerCount,
}

impl Queue {
    /// Its name.
    pub fn name(&self) -> &ShortString {
        &self.name
    }

    /// How many messages wait in it.
    pub fn message_count(&self) -> MessageCount {
        self.message_count
    }

    /// How many consumers it has.
    pub fn consumer_count(&self) -> ConsumerCount {
        self.consumer_count
    }
}

impl Borrow<str> for Queue {
    fn borrow(&self) -> &str {
        self.name.as_str()
    }
}

/// A channel's number, as long as somebody has it. Then the channel is closed, if it is open still, and the number is free.
pub struct Opened {
    shared: Arc<Shared>,
    place: usize,
    id: ChannelId,
    _closer: Arc<Closer>,
}

impl Drop for Opened {
    fn drop(&mut self) {
        if let Ok(octets) = methods::close(20, 40, 200, &"".into()).octets() {
            self.shared.drop_channel(self.place, &octets);
        }
    }
}

/// A channel. Clones are the same one; with the last of them, and of its consumers, it is closed.
///
/// ```no_run
/// use lapin::{options::*, runtime::block_on, types::FieldTable, BasicProperties, Connection, ConnectionProperties, Result};
///
/// fn main() -> Result<()> {
///     block_on(async {
///         let connection = Connection::connect("amqp://127.0.0.1:5672/%2f", ConnectionProperties::default()).await?;
///         let channel = connection.create_channel().await?;
///         channel.queue_declare("hello".into(), QueueDeclareOptions::default(), FieldTable::default()).await?;
///         channel.confirm_select(ConfirmSelectOptions::default()).await?;
///         let properties = BasicProperties::default().with_delivery_mode(2);
///         let confirm = channel.basic_publish("".into(), "hello".into(), BasicPublishOptions::default(), b"Hello!", properties).await?;
///         assert!(confirm.await?.is_ack());
///         connection.close(200, "bye".into()).await
///     })
/// }
/// ```
#[derive(Clone)]
pub struct Channel {
    opened: Arc<Opened>,
    status: ChannelStatus,
}

// The answer of a call. Dropped before it is there, the call goes on, and what it brings goes back.
struct Answer<'a> {
    shared: &'a Arc<Shared>,
    ticket: Option<u64>,
}

impl Future for Answer<'_> {
    type Output = Result<Reply>;

    fn poll(mut self: Pin<&mut Self>, cx: &mut Context<'_>) -> Poll<Self::Output> {
        let ticket = self.ticket.expect("an answer is given once");
        let found = std::task::ready!(self.shared.poll_ticket(ticket, cx));
        self.ticket = None;
        Poll::Ready(found)
    }
}

impl Drop for Answer<'_> {
    fn drop(&mut self) {
        if let Some(ticket) = self.ticket {
            self.shared.drop_ticket(ticket);
        }
    }
}

/// Waits for the answer of a ticket.
pub(crate) async fn answer(shared: &Arc<Shared>, ticket: u64) -> Result<Reply> {
    Answer { shared, ticket: Some(ticket) }.await
}

// A wait for room, or for all confirms, by its number, 0 while it is none: dropped, nobody is woken by it.
struct Turn<'a> {
    shared: &'a Arc<Shared>,
    place: Option<usize>,
    number: u64,
}

impl Drop for Turn<'_> {
    fn drop(&mut self) {
        match self.place {
            _ if self.number == 0 => {}
            Some(place) => self.shared.drop_wait(place, self.number),
            None => self.shared.drop_room(self.number),
        }
    }
}

impl Channel {
    pub(crate) fn new(shared: Arc<Shared>, place: usize, id: ChannelId, closer: Arc<Closer>) -> Channel {
        let status = ChannelStatus { shared: shared.clone(), place, id };
        Channel { opened: Arc::new(Opened { shared, place, id, _closer: closer }), status }
    }

    fn shared(&self) -> &Arc<Shared> {
        &self.opened.shared
    }

    // The answer of a call, or that it has left where there is none.
    async fn call_with(&self, name: &'static str, method: Method, acks: bool, leaves: bool) -> Result<Reply> {
        let ticket = self.shared().ask(self.opened.place, name, &method.octets()?, acks, leaves)?;
        answer(self.shared(), ticket).await
    }

    async fn done(&self, name: &'static str, method: Method, leaves: bool) -> Result<()> {
        self.call_with(name, method, false, leaves).await.map(|_| ())
    }

    async fn count(&self, name: &'static str, method: Method, leaves: bool) -> Result<MessageCount> {
        match self.call_with(name, method, false, leaves).await? {
            Reply::Count(count) => Ok(count as MessageCount),
            _ => Ok(0),
        }
    }

    /// Its number.
    pub fn id(&self) -> ChannelId {
        self.opened.id
    }

    /// What it is doing now.
    pub fn status(&self) -> &ChannelStatus {
        &self.status
    }

    /// Closes it, and waits for the broker's answer.
    pub async fn close(&self, reply_code: ReplyCode, reply_text: ShortString) -> Result<()> {
        self.done("channel.close", methods::close(20, 40, reply_code, &reply_text), false).await
    }

    /// Declares a queue; with an empty name the broker makes one up.
    pub async fn queue_declare(&self, queue: ShortString, options: QueueDeclareOptions, arguments: FieldTable) -> Result<Queue> {
        let QueueDeclareOptions { passive, durable, exclusive, auto_delete, nowait } = options;
        let method = Method::with_ticket(50, 10).short(&queue).bits([passive, durable, exclusive, auto_delete, nowait]).table(&arguments);
        match self.call_with("queue.declare", method, false, nowait).await? {
            Reply::Queue(name, message_count, consumer_count) => Ok(Queue { name, message_count, consumer_count }),
            _ => Ok(Queue { name: queue, message_count: 0, consumer_count: 0 }),
        }
    }

    /// Binds a queue to an exchange.
    pub async fn queue_bind(
        &self, queue: ShortString, exchange: ShortString, routing_key: ShortString, options: QueueBindOptions, arguments: FieldTable,
    ) -> Result<()> {
        let names = Method::with_ticket(50, 20).short(&queue).short(&exchange).short(&routing_key);
        self.done("queue.bind", names.bits([options.nowait]).table(&arguments), options.nowait).await
    }

    /// Takes a binding away.
    pub async fn queue_unbind(&self, queue: ShortString, exchange: ShortString, routing_key: ShortString, arguments: FieldTable) -> Result<()> {
        let names = Method::with_ticket(50, 50).short(&queue).short(&exchange).short(&routing_key);
        self.done("queue.unbind", names.table(&arguments), false).await
    }

    /// Drops the messages that wait in a queue: how many.
    pub async fn queue_purge(&self, queue: ShortString, options: QueuePurgeOptions) -> Result<MessageCount> {
        self.count("queue.purge", Method::with_ticket(50, 30).short(&queue).bits([options.nowait]), options.nowait).await
    }

    /// Deletes a queue: how many messages it had.
    pub async fn queue_delete(&self, queue: ShortString, options: QueueDeleteOptions) -> Result<MessageCount> {
        let QueueDeleteOptions { if_unused, if_empty, nowait } = options;
        self.count("queue.delete", Method::with_ticket(50, 40).short(&queue).bits([if_unused, if_empty, nowait]), nowait).await
    }

    /// Declares an exchange.
    pub async fn exchange_declare(
        &self, exchange: ShortString, kind: ExchangeKind, options: ExchangeDeclareOptions, arguments: FieldTable,
    ) -> Result<()> {
        let ExchangeDeclareOptions { passive, durable, auto_delete, internal, nowait } = options;
        let names = Method::with_ticket(40, 10).short(&exchange).short(&kind.kind().into());
        self.done("exchange.declare", names.bits([passive, durable, auto_delete, internal, nowait]).table(&arguments), nowait).await
    }

    /// Deletes an exchange.
    pub async fn exchange_delete(&self, exchange: ShortString, options: ExchangeDeleteOptions) -> Result<()> {
        let ExchangeDeleteOptions { if_unused, nowait } = options;
        self.done("exchange.delete", Method::with_ticket(40, 20).short(&exchange).bits([if_unused, nowait]), nowait).await
    }

    /// Binds an exchange to another one.
    pub async fn exchange_bind(
        &self, destination: ShortString, source: ShortString, routing_key: ShortString, options: ExchangeBindOptions, arguments: FieldTable,
    ) -> Result<()> {
        let names = Method::with_ticket(40, 30).short(&destination).short(&source).short(&routing_key);
        self.done("exchange.bind", names.bits([options.nowait]).table(&arguments), options.nowait).await
    }

    /// Takes such a binding away.
    pub async fn exchange_unbind(
        &self, destination: ShortString, source: ShortString, routing_key: ShortString, options: ExchangeUnbindOptions, arguments: FieldTable,
    ) -> Result<()> {
        let names = Method::with_ticket(40, 40).short(&destination).short(&source).short(&routing_key);
        self.done("exchange.unbind", names.bits([options.nowait]).table(&arguments), options.nowait).await
    }

    /// How many messages may be unsettled, 0 for no limit: of each consumer, or with `global` of the channel.
    pub async fn basic_qos(&self, prefetch_count: u16, options: BasicQosOptions) -> Result<()> {
        self.done("basic.qos", Method::new(60, 10).u32(0).u16(prefetch_count).bits([options.global]), false).await
    }

    /// Registers a consumer of a queue; with an empty tag the broker makes one up.
    pub async fn basic_consume(
        &self, queue: ShortString, consumer_tag: ShortString, options: BasicConsumeOptions, arguments: FieldTable,
    ) -> Result<Consumer> {
        let BasicConsumeOptions { no_local, no_ack, exclusive, nowait } = options;
        let method = Method::with_ticket(60, 20).short(&queue).short(&consumer_tag).bits([no_local, no_ack, exclusive, nowait]).table(&arguments);
        match self.call_with("basic.consume", method, !no_ack, nowait).await? {
            Reply::Consumer(number, tag) => Ok(Consumer::new(self.shared().clone(), self.opened.clone(), number, tag, queue)),
            _ => Err(ErrorKind::Refused("no consumer was registered").into()),
        }
    }

    /// Cancels the consumer of a tag; it ends.
    pub async fn basic_cancel(&self, consumer_tag: ShortString, options: BasicCancelOptions) -> Result<()> {
        self.done("basic.cancel", Method::new(60, 30).short(&consumer_tag).bits([options.nowait]), options.nowait).await
    }

    /// The oldest message of a queue; None where it is empty.
    pub async fn basic_get(&self, queue: ShortString, options: BasicGetOptions) -> Result<Option<BasicGetMessage>> {
        match self.call_with("basic.get", Method::with_ticket(60, 70).short(&queue).bits([options.no_ack]), !options.no_ack, false).await? {
            Reply::Got(message) => Ok(message),
            _ => Ok(None),
        }
    }

    /// Publishes. It is answered at once, where there is room for the message: less than 1 MiB waits to leave, and the broker takes messages. Its
    /// confirm is awaited by itself. Dropped before it is answered, nothing was published.
    pub async fn basic_publish(
        &self, exchange: ShortString, routing_key: ShortString, options: BasicPublishOptions, payload: &[u8], properties: BasicProperties,
    ) -> Result<PublisherConfirm> {
        let place = self.opened.place;
        let mut turn = Turn { shared: self.shared(), place: None, number: 0 };
        let (names, marks) = ([&exchange, &routing_key], [options.mandatory, options.immediate]);
        let confirm = poll_fn(|cx| turn.shared.poll_publish(cx, &mut turn.number, place, names, marks, payload, &properties)).await?;
        Ok(PublisherConfirm::new(self.shared().clone(), place, confirm))
    }

    /// Asks for confirms: each publish behind it has an outcome.
    pub async fn confirm_select(&self, options: ConfirmSelectOptions) -> Result<()> {
        self.done("confirm.select", Method::new(85, 10).bits([options.nowait]), options.nowait).await
    }

    /// Waits until each publish of the channel has an outcome: the messages that came back, and that no confirm has given; or the first error of a
    /// confirm that was dropped.
    pub async fn wait_for_confirms(&self) -> Result<Vec<BasicReturnMessage>> {
        let place = self.opened.place;
        let mut turn = Turn { shared: self.shared(), place: Some(place), number: 0 };
        poll_fn(|cx| turn.shared.poll_wait(place, &mut turn.number, cx)).await
    }

    /// Acknowledges by a tag; `Acker` does so once at most.
    pub async fn basic_ack(&self, delivery_tag: DeliveryTag, options: BasicAckOptions) -> Result<()> {
        self.done("basic.ack", Method::new(60, 80).u64(delivery_tag).bits([options.multiple]), true).await
    }

    /// Refuses by a tag.
    pub async fn basic_nack(&self, delivery_tag: DeliveryTag, options: BasicNackOptions) -> Result<()> {
        self.done("basic.nack", Method::new(60, 120).u64(delivery_tag).bits([options.multiple, options.requeue]), true).await
    }

    /// Refuses one by its tag.
    pub async fn basic_reject(&self, delivery_tag: DeliveryTag, options: BasicRejectOptions) -> Result<()> {
        self.done("basic.reject", Method::new(60, 90).u64(delivery_tag).bits([options.requeue]), true).await
    }

    /// Has all unsettled messages delivered again.
    pub async fn basic_recover(&self, options: BasicRecoverOptions) -> Result<()> {
        self.done("basic.recover", Method::new(60, 110).bits([options.requeue]), false).await
    }

    /// The same, without an answer; RabbitMQ closes the connection by it.
    pub async fn basic_recover_async(&self, options: BasicRecoverAsyncOptions) -> Result<()> {
        self.done("basic.recover-async", Method::new(60, 100).bits([options.requeue]), true).await
    }

    /// Asks the broker to pause, or to go on.
    pub async fn channel_flow(&self, options: ChannelFlowOptions) -> Result<bool> {
        self.count("channel.flow", Method::new(20, 20).bits([options.active]), false).await.map(|it| it != 0)
    }

    /// Asks for access to a realm, of which RabbitMQ knows nothing.
    pub async fn access_request(&self, realm: ShortString, options: AccessRequestOptions) -> Result<()> {
        let AccessRequestOptions { exclusive, passive, active, write, read } = options;
        self.done("access.request", Method::new(30, 10).short(&realm).bits([exclusive, passive, active, write, read]), false).await
    }

    /// Puts the channel into transactions.
    pub async fn tx_select(&self) -> Result<()> {
        self.done("tx.select", Method::new(90, 10), false).await
    }

    /// Commits.
    pub async fn tx_commit(&self) -> Result<()> {
        self.done("tx.commit", Method::new(90, 20), false).await
    }

    /// Rolls back.
    pub async fn tx_rollback(&self) -> Result<()> {
        self.done("tx.rollback", Method::new(90, 30), false).await
    }
}

impl fmt::Debug for Channel {
    fn fmt(&self, f: &mut fmt::Formatter<'_>) -> fmt::Result {
        f.debug_struct("Channel").field("id", &self.opened.id).field("status", &self.status).finish()
    }
}
